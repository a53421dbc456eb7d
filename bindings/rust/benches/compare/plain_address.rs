//! Addresses in safe Rust.

use hekthumar::sys::{Fields, Joined};

#[inline(never)]
pub fn join(segment: u8, index: u16, offset: u32) -> Joined {
    if offset >= 1 << 24 {
        return Joined { address: 0, number: 3 };
    }
    Joined { address: u64::from(segment) << 40 | u64::from(index) << 24 | u64::from(offset), number: 0 }
}

#[inline(never)]
pub fn split(address: u64) -> Fields {
    if address >> 48 != 0 {
        return Fields { offset: 0, index: 0, segment: 0, number: 3 };
    }
    Fields { offset: address as u32 & 0xFF_FFFF, index: (address >> 24) as u16, segment: (address >> 40) as u8, number: 0 }
}
