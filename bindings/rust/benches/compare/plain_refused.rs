//! Why an access is refused.

use hekthumar::sys::Outcome;

/// The number, and below it 16 bits of the distance, which only 13 has: as one number both take one register.
#[derive(Clone, Copy)]
pub struct Refused(u32);

impl From<u8> for Refused {
    #[inline(always)]
    fn from(number: u8) -> Refused {
        Refused(u32::from(number) << 16)
    }
}

impl Refused {
    /// A byte is absent, after so many of the access.
    #[inline(always)]
    pub fn absent(distance: usize) -> Refused {
        Refused(13 << 16 | distance as u32)
    }

    #[inline(always)]
    pub fn outcome(self) -> Outcome {
        Outcome { distance: self.0 as u16, number: (self.0 >> 16) as u8 }
    }
}

/// The number and the distance of a result.
#[inline(always)]
pub fn outcome(result: Result<(), Refused>) -> Outcome {
    result.err().unwrap_or(Refused::from(0)).outcome()
}
