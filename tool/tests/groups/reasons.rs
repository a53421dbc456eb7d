//! The reason behind each number, in scripts that expect the number.

use super::case::Case;
use crate::data::snapshot::{empty, mill, sound_mill};

/// Over a snapshot that is valid whole.
const SOUND: [(&str, &str); 6] = [
    ("reasons-requests", include_str!("../inputs/reasons-requests.txt")),
    ("reasons-absent", include_str!("../inputs/reasons-absent.txt")),
    ("reasons-forbidden", include_str!("../inputs/reasons-forbidden.txt")),
    ("reasons-frames", include_str!("../inputs/reasons-frames.txt")),
    ("reasons-records", include_str!("../inputs/reasons-records.txt")),
    ("reasons-editions", include_str!("../inputs/reasons-editions.txt")),
];

/// Over a snapshot with an account that is not valid.
const NOT_SOUND: [(&str, &str); 4] = [
    ("reasons-begin", include_str!("../inputs/reasons-begin.txt")),
    ("reasons-invocations", include_str!("../inputs/reasons-invocations.txt")),
    ("reasons-not-valid", include_str!("../inputs/reasons-not-valid.txt")),
    ("reasons-copies", include_str!("../inputs/reasons-copies.txt")),
];

pub fn cases() -> Vec<Case> {
    let sound = SOUND.map(|(name, script)| Case::script(name, sound_mill(), script));
    let not_sound = NOT_SOUND.map(|(name, script)| Case::script(name, mill(), script));
    let no_account = Case::script("reasons-no-account", empty(), "begin 0 => 4\n");
    let long_span = format!("begin 0 => 0\nstore-span 0x03_0001_000000 {} => 2\n", "00".repeat(4_097));
    let others = [no_account, Case::script("reasons-long-span", sound_mill(), long_span)];
    sound.into_iter().chain(not_sound).chain(others).collect()
}
