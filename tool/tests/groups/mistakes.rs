//! Scripts that cannot be read: each mistake with its line and its column.

use super::case::Case;
use crate::data::snapshot::sound_mill;

/// One mistake each.
const SINGLE: [(&str, &[u8]); 11] = [
    ("run-unknown", b"begin 0\n\n  jump 7\nmap\n"),
    ("run-missing", b"begin 0\nload 0x030001000000\n"),
    ("run-surplus", b"begin 0\nreturn 1\n"),
    ("run-number", b"begin 0\nload 0x03zz 1\n"),
    ("run-large", b"begin 65536\n"),
    ("run-late", b"frames 4\nbegin 0\nframes 5\n"),
    ("run-late-resume", b"resume control pool\nframes 5\n"),
    ("run-bytes", b"begin 0\nstore-span 0x030001000000 123\n"),
    ("run-kind", b"begin 0\ntranslate jump 0 1\n"),
    ("run-edges", b"begin 0\r\nload 18446744073709551615 1\nload 18446744073709551616 1\n"),
    ("mistake-no-line-end", b"begin 0\nlist 7"),
];

/// Every mistake of a kind, a line each.
const MANY: [(&str, &str); 6] = [
    ("mistake-missing", include_str!("../inputs/mistake-missing.txt")),
    ("mistake-surplus", include_str!("../inputs/mistake-surplus.txt")),
    ("mistake-numbers", include_str!("../inputs/mistake-numbers.txt")),
    ("mistake-choices", include_str!("../inputs/mistake-choices.txt")),
    ("mistake-expected", include_str!("../inputs/mistake-expected.txt")),
    ("mistake-not-expected", include_str!("../inputs/mistake-not-expected.txt")),
];

/// Columns count characters: a tab is one, so is a letter of two or three bytes, and the end of a line in CRLF is none.
const COLUMNS: &str = "\t\tjump\n\
    save-list Größe zwei\n\
    save-list 溝 zwei\n\
    \t save-list\t\tkept \t two # no jump\n\
    list 7\r\n\
    load 0x03_0001_000000\r\n\
    begin\t \r\n";

/// What a terminal would obey, in words that are complained of.
const ESCAPES: &[u8] = b"ju\x1b[2Jmp 7\nbegin \x1b]0;title\x07\nlist \xc2\x85\xff\npoke \x00 0 00\nmap\x0b\n";

/// The files of the first lines are not written: a later line cannot be read.
const NOTHING_DONE: &str = "begin 0\nsave-list kept-list\nsave-control kept-control\nsave-pool kept-pool\nlist => 15\n";

pub fn cases() -> Vec<Case> {
    let single = SINGLE.map(|(name, script)| Case::script(name, sound_mill(), script));
    let many = MANY.map(|(name, script)| Case::script(name, sound_mill(), script));
    let others = [
        Case::script("mistake-columns", sound_mill(), COLUMNS),
        Case::script("mistake-escape", sound_mill(), ESCAPES),
        Case::script("mistake-nothing-done", sound_mill(), NOTHING_DONE)
            .leaves_no("kept-list")
            .leaves_no("kept-control")
            .leaves_no("kept-pool"),
    ];
    single.into_iter().chain(many).chain(others).collect()
}
