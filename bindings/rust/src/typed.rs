//! Loads and stores of Rust's unsigned integers.

use crate::{Address, Memory, Refusal};

macro_rules! typed_access {
    ($($load:ident, $store:ident, $integer:ident;)*) => {
        impl Memory<'_> {
            $(
                #[doc = concat!("[`Memory::load`] of a [`", stringify!($integer), "`].")]
                pub fn $load(&self, address: Address) -> Result<$integer, Refusal> {
                    self.load(address, size_of::<$integer>()).map(|value| value as $integer)
                }

                #[doc = concat!("[`Memory::store`] of a [`", stringify!($integer), "`].")]
                pub fn $store(&mut self, address: Address, value: $integer) -> Result<(), Refusal> {
                    self.store(address, size_of::<$integer>(), value.into())
                }
            )*
        }
    };
}

typed_access! {
    load_u8, store_u8, u8;
    load_u16, store_u16, u16;
    load_u32, store_u32, u32;
    load_u64, store_u64, u64;
}
