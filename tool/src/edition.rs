//! The editions in words: what they are called, and where each has the current program.

use crate::world::World;
use hekthumar::{Address, Edition};

/// The editions, and the words for them in the same order.
pub const ALL: [Edition; 2] = [Edition::Older, Edition::Newer];
pub const WORDS: [&str; 2] = ["older", "newer"];

/// The number of an edition and the word for it.
pub fn described(number: u32) -> String {
    let known = ALL.iter().position(|edition| *edition as u32 == number);
    format!("{number} ({})", known.map_or("unknown", |edition| WORDS[edition]))
}

/// Where alone a fetch is allowed.
pub fn fetched(world: World) -> Option<String> {
    Some(match world.edition()? {
        Edition::Older => format!("in the older edition only the current program is fetched from, {}", current_data(world)?),
        Edition::Newer => format!("in the newer edition only the program is fetched from, at {}", Address::program(0).ok()?),
    })
}

/// Why there is no program segment, in the edition without one.
pub fn no_program(world: World) -> Option<String> {
    match world.edition()? {
        Edition::Older => {
            Some(format!("in the older edition no segment has type 0 and index 3; the current program is {}", current_data(world)?))
        }
        Edition::Newer => None,
    }
}

/// The data of the current program's account.
fn current_data(world: World) -> Option<String> {
    let program = world.current()?.program;
    Some(format!("the data of account {program} at {}", Address::data(program, 0).ok()?))
}
