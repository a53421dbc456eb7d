//! Why a returned value was refused where the access to it was not.

use hekthumar::Address;

/// The discriminant that was found at an address.
pub fn stands(address: Address, discriminant: u64) -> String {
    format!("the discriminant at {address} is {discriminant:#x}; {ALLOWED}")
}

/// The discriminant that was to be written.
pub fn given(discriminant: u64) -> String {
    format!("the discriminant given is {discriminant:#x}; {ALLOWED}")
}

const ALLOWED: &str = "only 0 (Ok) and 1 (Err) are allowed";
