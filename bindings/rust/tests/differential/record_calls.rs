//! Generation of records, and of the calls that read and write them.

use crate::bytes::PAGE;
use crate::calls::{self, ANY_ROW, ROWS};
use crate::interface::{record_call, Bytes, Call, World};
use crate::random::Random;
use crate::record::{Record, Shape};

/// Discriminants that are refused. The low bits of most are those of 0 or 1.
pub const WRONG_DISCRIMINANTS: [u64; 12] =
    [2, 3, 0xFF, 0x100, 0x101, 0x1_0000, 0x1_0001, 1 << 32, (1 << 32) + 1, 1 << 63, (1 << 63) + 1, u64::MAX];

/// The call of this name, which reads or writes a record.
pub fn generate(random: &Random, world: &World, name: &str, stores: &[usize; ROWS]) -> Call {
    let (is_read, shape) = record_call(name).expect("every other call has a name of its own");
    if is_read {
        return Call::ReadRecord { shape, address: address(random, world, shape, &ANY_ROW) };
    }
    Call::WriteRecord { address: address(random, world, shape, stores), record: record(random, world, shape) }
}

/// A returned value as a program may leave it, with any discriminant, and the read of it.
pub fn left_by_program(random: &Random, world: &World, stores: &[usize; ROWS]) -> [Call; 2] {
    let address = address(random, world, Shape::Returned, stores);
    let bytes = Bytes(record(random, world, Shape::Returned).bytes());
    [Call::StoreSpan { address, bytes }, Call::ReadRecord { shape: Shape::Returned, address }]
}

/// Anywhere; one in six comes before the end of what is present, and one in six before a page's end, by any number of its bytes.
fn address(random: &Random, world: &World, shape: Shape, rows: &[usize; ROWS]) -> u64 {
    calls::address_by(random, world, rows, |present| {
        let (end, offset) = (present.end, calls::near(random, present, random.choose(&[1, 8])));
        let before = 1 + random.below(shape.length());
        match random.below(6) {
            0 => end.saturating_sub(before),
            1 => offset / PAGE * PAGE + PAGE - before,
            _ => offset,
        }
    })
}

fn record(random: &Random, world: &World, shape: Shape) -> Record {
    let field = |place: usize| match place {
        0 if shape == Shape::Returned => discriminant(random),
        _ if shape.pointers().contains(&place) => pointer(random, world),
        _ => number(random),
    };
    let fields: Vec<u64> = (0..shape.layout().len()).map(field).collect();
    Record::of(shape, &fields)
}

fn discriminant(random: &Random) -> u64 {
    let wrong = random.choose(&WRONG_DISCRIMINANTS);
    random.choose(&[0, 0, 1, 1, wrong, wrong, wrong, random.next()])
}

/// An address of the machine, or any number.
fn pointer(random: &Random, world: &World) -> u64 {
    let address = calls::address_by(random, world, &ANY_ROW, |present| calls::near(random, present, 1));
    random.choose(&[address, address, 0, u64::MAX, random.next()])
}

/// A length, a line or a column.
fn number(random: &Random) -> u64 {
    let drawn = random.next();
    random.choose(&[drawn, drawn >> 32, drawn >> 52, 0, u64::MAX])
}
