//! Records of source document 002 in program memory: "Read ... by one span load each, and write each back by one span store."

use super::access::Kind;
use super::why::{Refusal, Why};
use super::Vm;
use crate::record::{Record, Shape};

impl Vm<'_> {
    pub fn read_record(&self, shape: Shape, address: u64) -> Result<Record, Refusal> {
        let record = self.load_record(shape, address)?;
        // "14 comes after every refusal of the access": where there are bytes, none has been told.
        self.check_record(Kind::LoadSpan, &record)?;
        Ok(record)
    }

    pub fn load_record(&self, shape: Shape, address: u64) -> Result<Record, Refusal> {
        if let Some(mistaken) = self.mistaken_load(shape, address) {
            return mistaken;
        }
        let loaded = self.load(Kind::LoadSpan, address, self.record_length(shape));
        loaded.map(|bytes| self.decoded(shape, bytes)).map_err(|refusal| self.mistaken_refusal(refusal))
    }

    pub fn write_record(&mut self, address: u64, record: &Record) -> Result<(), Refusal> {
        if let Err(why) = self.check_record(Kind::StoreSpan, record) {
            return Err(self.refused_write(address, record, why));
        }
        if let Some(mistaken) = self.mistaken_store(address, record) {
            return mistaken;
        }
        let bytes = self.encoded(record);
        self.store(Kind::StoreSpan, address, &bytes).map_err(|refusal| self.mistaken_refusal(refusal))
    }

    /// "discriminant 0 or 1, any other refused with 14"; "A pointer is one of our addresses, passed on unchecked"
    fn check_record(&self, kind: Kind, record: &Record) -> Result<(), Why> {
        if let Some(why) = self.mistaken_check(kind, record) {
            return Err(why);
        }
        let Record::Returned(value) = record else { return Ok(()) };
        let discriminant = self.mistaken_discriminant(kind, value.discriminant).unwrap_or(value.discriminant);
        (discriminant <= 1).then_some(()).ok_or(Why::Discriminant)
    }

    /// "14 comes after every refusal of the access", 8 too, and changes nothing: the store is not made, only asked for.
    fn refused_write(&mut self, address: u64, record: &Record, why: Why) -> Refusal {
        match self.translate(Some(Kind::StoreSpan), address, record.shape().length()) {
            Err(refusal) if !self.is_overtaken(refusal.why) => self.mistaken_refusal(refusal),
            Err(_) => why.into(),
            Ok(_) => {
                self.spoil_refused_write(address, record);
                why.into()
            }
        }
    }
}
