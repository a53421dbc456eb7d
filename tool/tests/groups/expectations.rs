//! What a script expects, met and not met.

use super::case::Case;
use crate::data::snapshot::sound_mill;

pub fn cases() -> Vec<Case> {
    vec![
        Case::script("expect-met", sound_mill(), include_str!("../inputs/expect-met.txt")),
        Case::script("expect-not-met", sound_mill(), include_str!("../inputs/expect-not-met.txt")),
        Case::script("expect-no-refusal", sound_mill(), "begin 0\n  load 0x03_0001_001770 1\nlist\n"),
        Case::script("expect-refusal", sound_mill(), "begin 0\nload 0x03_0001_001768 8 => 13 4\n"),
        Case::script("expect-marks-escape", sound_mill(), b"frames 1\nmap => \x1b[2J\xff\n"),
        Case::script("expect-column", sound_mill(), "begin 0\n\tmap # Größe\nlist\t=>  0 1 # eins\n"),
    ]
}
