//! The papers' rules in plain safe Rust over the raw buffers, written for clarity alone. Each rule cites the paper's sentence.

mod access;
mod apply;
mod begin;
mod bug;
mod control;
mod depth;
mod edition;
mod frames;
mod invocation;
mod list;
mod planted;
mod presence;
mod record_mistakes;
mod records;
mod return_;
pub mod snapshot;
mod why;

use hekthumar::sys::{Fields, Joined, Outcome, Place, ReadAnswer, Value, View};

pub use bug::Bug;
pub use planted::Planted;
pub use why::Why;

use crate::bytes::{number, MAX_DATA, PAGE};
use crate::interface::{Answer, Call, World};
use crate::record::{Record, Shape};
use access::{Kind, Spot};
use list::Part;
use why::Refusal;

/// The buffers of one call, and the planted mistake if there is one.
struct Vm<'a> {
    world: &'a mut World,
    bug: Option<Bug>,
    /// How far the depth that the mistake counts is above the right one.
    ahead: usize,
}

impl Vm<'_> {
    fn has(&self, bug: Bug) -> bool {
        self.bug == Some(bug)
    }
}

/// One call of the model; beside its answer, why it refused.
pub fn run(world: &mut World, call: &mut Call, planted: &mut Planted) -> (Answer, Option<Why>) {
    let (answer, why) = answered(Vm { world, bug: planted.bug(), ahead: planted.ahead() }, call);
    if why.is_none() {
        planted.count(call);
    }
    (answer, why)
}

fn answered(mut vm: Vm, call: &mut Call) -> (Answer, Option<Why>) {
    let bug = vm.bug;
    match call {
        Call::Join { segment, index, offset } => answer(join(*segment, *index, *offset, bug), Answer::Joined),
        Call::Split { address } => answer(split(*address, bug), Answer::Fields),
        Call::Begin { program, edition } => done(vm.begin(*program, *edition)),
        Call::BeginPages { program, edition, pages } => done(vm.begin_pages(*program, *edition, *pages)),
        Call::Translate { kind, address, length } => answer(translate(&vm, *kind, *address, *length), Answer::Place),
        Call::Load { address, size } => answer(load(&vm, Kind::Load, *address, *size), Answer::Value),
        Call::Fetch { address, size } => answer(load(&vm, Kind::Fetch, *address, *size), Answer::Value),
        Call::Store { address, size, value } => answer(store(&mut vm, *address, *size, *value), Answer::Outcome),
        Call::LoadSpan { address, out } => answer(load_span(&vm, *address, &mut out.0), Answer::Outcome),
        Call::StoreSpan { address, bytes } => answer(store_span(&mut vm, *address, &bytes.0), Answer::Outcome),
        Call::Invoke { program, registers } => done(vm.call(*program, &registers.0)),
        Call::Return { registers } => done(vm.return_(&mut registers.0)),
        Call::Resize { region, pages } => done(vm.resize(*region, *pages)),
        Call::ChangeList { out } => done(vm.change_list(&mut out.0)),
        Call::Apply { list, account, data } => done(apply::apply(&list.0, *account, &mut data.0, bug)),
        Call::PageView { account, page } => answer(vm.page_view(*account, *page).map(view), Answer::View),
        Call::ReadRecord { shape, address } => read_record(&vm, *shape, *address),
        Call::WriteRecord { address, record } => answer(write_record(&mut vm, *address, record), Answer::Outcome),
    }
}

/// All that a begin is refused for, the first of which it tells; nothing for any other call.
pub fn begin_refusals(world: &mut World, call: &Call) -> Vec<Why> {
    let vm = Vm { world, bug: None, ahead: 0 };
    match call {
        Call::Begin { program, edition } => vm.begin_refusals(*program, *edition, 1),
        Call::BeginPages { program, edition, pages } => vm.begin_refusals(*program, *edition, *pages),
        _ => vec![],
    }
}

fn done(result: Result<(), Why>) -> (Answer, Option<Why>) {
    (Answer::Number(result.err().map_or(0, Why::number)), result.err())
}

/// An answer that is all zeros but for its number, and for the distance where it has a place for one, when it is a refusal.
trait Refused {
    fn refused(number: u8, distance: u16) -> Self;
}

/// "Every number but 0 changes nothing; a value is then 0 and a view is empty."
fn answer<T: Refused>(result: Result<T, impl Into<Refusal>>, wrap: fn(T) -> Answer) -> (Answer, Option<Why>) {
    match result.map_err(Into::into) {
        Ok(content) => (wrap(content), None),
        Err(Refusal { why, distance }) => (wrap(T::refused(why.number(), distance)), Some(why)),
    }
}

impl Refused for Joined {
    fn refused(number: u8, _: u16) -> Joined {
        Joined { address: 0, number }
    }
}

impl Refused for Fields {
    fn refused(number: u8, _: u16) -> Fields {
        Fields { offset: 0, index: 0, segment: 0, number }
    }
}

impl Refused for Value {
    fn refused(number: u8, distance: u16) -> Value {
        Value { value: 0, distance, number }
    }
}

impl Refused for Outcome {
    fn refused(number: u8, distance: u16) -> Outcome {
        Outcome { distance, number }
    }
}

/// A refused translation has its distance in `at`.
impl Refused for Place {
    fn refused(number: u8, distance: u16) -> Place {
        Place { at: distance.into(), frame: 0, account: 0, page: 0, place: 0, number }
    }
}

/// The view is no access and has no distance.
impl Refused for View {
    fn refused(number: u8, _: u16) -> View {
        View { start: 0, length: 0, holder: 0, number }
    }
}

/// "it refuses an offset of 2^24 or more with 3 (and gives 0)"
fn join(segment: u8, index: u16, offset: u32, bug: Option<Bug>) -> Result<Joined, Why> {
    if offset as usize >= MAX_DATA {
        return Err(if bug == Some(Bug::JoinToldThirteen) { Why::NotPresent } else { Why::WideOffset });
    }
    Ok(Joined { address: u64::from(segment) << 40 | u64::from(index) << 24 | u64::from(offset), number: 0 })
}

/// "Splitting refuses set upper bits with 3 and gives zero fields."
fn split(address: u64, bug: Option<Bug>) -> Result<Fields, Why> {
    if address >> 48 != 0 {
        return Err(if bug == Some(Bug::SplitToldThirteen) { Why::NotPresent } else { Why::UpperBits });
    }
    Ok(Fields { offset: (address & 0xFF_FFFF) as u32, index: (address >> 24) as u16, segment: (address >> 40) as u8, number: 0 })
}

/// Translation answers for an access, so it gives the same number and the same distance.
fn translate(vm: &Vm, kind: u8, address: u64, length: usize) -> Result<Place, Refusal> {
    match vm.translate(Kind::from_code(kind), address, length) {
        Err(refusal) if vm.has(Bug::TranslationLosesDistance) => Err(refusal.why.into()),
        answer => answer.map(|spot| place(vm.named(spot))),
    }
}

/// "a load as their little-endian number"
fn load(vm: &Vm, kind: Kind, address: u64, size: usize) -> Result<Value, Refusal> {
    let bytes = vm.load(kind, address, size)?;
    let Outcome { distance, .. } = accepted(vm, size);
    Ok(Value { value: number(&bytes), distance, number: 0 })
}

/// "a store writes the low bytes of its value"; a size that is no size is refused before any byte of the value counts.
fn store(vm: &mut Vm, address: u64, size: usize, value: u64) -> Result<Outcome, Refusal> {
    match value.to_le_bytes().get(..size) {
        Some(bytes) => vm.store(Kind::Store, address, bytes)?,
        None => vm.translate(Some(Kind::Store), address, size).map(|_| ())?,
    }
    Ok(accepted(vm, size))
}

/// A refused span load leaves its buffer as it was.
fn load_span(vm: &Vm, address: u64, out: &mut [u8]) -> Result<Outcome, Refusal> {
    let loaded = vm.load(Kind::LoadSpan, address, out.len());
    match &loaded {
        Ok(bytes) => out.copy_from_slice(bytes),
        Err(_) if vm.has(Bug::RefusedSpanClearsBuffer) => out.fill(0),
        Err(_) => {}
    }
    loaded.map(|bytes| accepted(vm, bytes.len()))
}

fn store_span(vm: &mut Vm, address: u64, bytes: &[u8]) -> Result<Outcome, Refusal> {
    vm.store(Kind::StoreSpan, address, bytes)?;
    Ok(accepted(vm, bytes.len()))
}

/// "A refused read gives a record of zeros."
fn read_record(vm: &Vm, shape: Shape, address: u64) -> (Answer, Option<Why>) {
    match vm.read_record(shape, address) {
        Ok(record) => {
            let Outcome { distance, number } = accepted(vm, shape.length());
            (Answer::Read(ReadAnswer { record, distance, number }), None)
        }
        Err(Refusal { why, distance }) => {
            let record = vm.mistaken_refused_read(shape, address).unwrap_or(Record::zeros(shape));
            (Answer::Read(ReadAnswer { record, distance, number: why.number() }), Some(why))
        }
    }
}

fn write_record(vm: &mut Vm, address: u64, record: &Record) -> Result<Outcome, Refusal> {
    vm.write_record(address, record)?;
    Ok(accepted(vm, record.shape().length()))
}

/// An accepted access has no absent byte: its distance is 0.
fn accepted(vm: &Vm, length: usize) -> Outcome {
    Outcome { distance: if vm.has(Bug::DistanceWhenDone) { length as u16 } else { 0 }, number: 0 }
}

fn place(spot: Spot) -> Place {
    let nowhere = Place::refused(0, 0);
    match spot {
        Spot::Snapshot(at) => Place { at: at as u64, place: 1, ..nowhere },
        Spot::Control(at) => Place { at: at as u64, place: 2, ..nowhere },
        Spot::Zeros => Place { place: 3, ..nowhere },
        Spot::Pool(at) => Place { at: at as u64, place: 4, ..nowhere },
        Spot::Take { frame, account, page, at } => {
            debug_assert_eq!(at / PAGE, frame);
            Place { at: at as u64, frame: frame as u16, account, page, place: 5, number: 0 }
        }
    }
}

fn view(part: Part) -> View {
    match part {
        Part::Snapshot { start, length } => View { start: start as u64, length: length as u64, holder: 1, number: 0 },
        Part::Pool { start, length } => View { start: start as u64, length: length as u64, holder: 2, number: 0 },
    }
}
