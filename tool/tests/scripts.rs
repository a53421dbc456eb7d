//! Scripts that are tests by themselves: in `scripts/`, each says what it expects of every call, with numbers from documents 01 and 02.

mod common;
mod data;

use common::folder::Folder;
use common::tool::{self, Came};
use data::bytes::{patched, with_word, words};
use data::control::{control, copy_at, entry, older, record, UNUSED};
use data::layout::{account_at, control_length, COPY, HEAP, LENGTH, PAGE, STACK};
use data::{list, snapshot};
use std::collections::BTreeSet;
use std::fs;
use std::path::PathBuf;

/// A script's name, the files that it reads, and those that it has to leave.
struct Script {
    name: &'static str,
    files: Vec<(&'static str, Vec<u8>)>,
    left: Vec<(&'static str, Vec<u8>)>,
}

/// Statements of which nothing can be expected: they call nothing.
const NO_CALLS: [&str; 5] = ["frames", "resume", "poke", "save-control", "save-pool"];

/// Words of what is expected that are neither numbers nor marks of the map.
const NAMES: [&str; 5] = ["snapshot", "control", "zeros", "pool", "take"];

fn scripts() -> Vec<Script> {
    let over = |name, snapshot| Script { name, files: vec![("snapshot", snapshot)], left: Vec::new() };
    vec![
        over("walk", snapshot::trials(0, &[])),
        over("edges", snapshot::trials(1, &snapshot::slots())),
        over("contexts", snapshot::trials(512, &snapshot::slots())),
        over("frames", snapshot::trials(1, &snapshot::slots())),
        begin(),
        heap(),
        depths(),
        records(),
        editions(),
        inspect(),
        bookings(),
    ]
}

/// The script pokes nines into both ends of frame 0 and the start of frame 1. Files for a pool without a frame are there too.
fn begin() -> Script {
    let files = [("snapshot", snapshot::trials(1, &snapshot::slots())), ("no-control", vec![0; control_length(0)]), ("no-pool", vec![])];
    let begun = |pages, first| control(&[record(1, pages, 0, &[])], &[first, UNUSED, UNUSED]);
    let (empty, one) = (begun(0, UNUSED), begun(1, entry(STACK, 0, 0, 4_095)));
    let zeroed = patched(&[0; 3 * PAGE], PAGE, &[9; 8]);
    let poked = patched(&patched(&zeroed, 0, &[9; 8]), PAGE - 8, &[9; 8]);
    let without = [("empty-control", empty), ("empty-pool", poked)];
    let with = [("one-control", one.clone()), ("one-pool", zeroed.clone()), ("control", one), ("pool", zeroed)];
    Script { name: "begin", files: files.into(), left: without.into_iter().chain(with).collect() }
}

/// What the script keeps: with a list that was left, with pages left by two depths, and with entries outside the sizes.
fn heap() -> Script {
    let held = |pages, between: [[u8; 8]; 4]| {
        let frames = [[entry(STACK, 0, 0, 4_095)].as_slice(), &between, &[entry(COPY, 0, 5, 0)]].concat();
        control(&[record(0, 1, pages, &[])], &frames)
    };
    let page = |page, tag| entry(HEAP, tag, 0, page);
    let controls = [
        ("left-control", held(2, [UNUSED, page(0, 1), page(1, 1), UNUSED])),
        ("nested-control", held(3, [page(0, 1), page(1, 2), page(2, 1), UNUSED])),
        ("outside-control", held(0, [UNUSED, page(9, 5), UNUSED, entry(STACK, 0, 0, 0)])),
    ];
    let pools =
        [("left-pool", heap_pool([[7, 0], [11, 0x0700_0000_1000], [33, 0]])), ("nested-pool", heap_pool([[77, 0], [99, 98], [97, 0]]))];
    let files = vec![("snapshot", snapshot::trials(1, &snapshot::slots()))];
    Script { name: "heap", files, left: controls.into_iter().chain(pools).collect() }
}

/// Six frames: the stack page, three with two numbers each, zeros, page 0 of account 5 with another first byte. One that was freed keeps its
/// numbers.
fn heap_pool(numbers: [[u64; 2]; 3]) -> Vec<u8> {
    let copy = patched(&snapshot::slots()[..PAGE], 0, &[0xee]);
    let pool = patched(&[0; 6 * PAGE], 5 * PAGE, &copy);
    numbers.iter().zip(1..).fold(pool, |pool, (cell, frame)| patched(&pool, frame * PAGE, &cell.map(u64::to_le_bytes).concat()))
}

/// What the script keeps: copies of depths 2, 1 and 0 beside a heap page of depth 2, their list, and entries written over what was there.
fn depths() -> Script {
    let longs = |numbers: [u64; 2]| numbers.map(u64::to_le_bytes).concat();
    let first = patched(&patched(&[snapshot::code(), vec![0; 84]].concat(), 1, &longs([7, 8])), 0x11, &longs([9, 10]));
    let low = patched(&snapshot::slots()[..PAGE], 0, &[0xee, 0xef, 0xed]);
    let booked = patched(&list::trial_slots()[PAGE..], 0xc, &[0x33, 0x44]);
    let high = patched(&booked, 0x10, &longs([5, 6]));
    let stored = list::list(&[(1, 0, &first), (5, 0, &low), (5, 1, &high)]);

    let copies = [copy_at(2, 1, 0), copy_at(1, 5, 0), copy_at(0, 5, 1)];
    let frames = [[entry(STACK, 0, 0, 4_095), entry(HEAP, 2, 0, 0), UNUSED].as_slice(), &copies].concat();
    let taken = [entry(HEAP, 1, 0, 0), UNUSED, UNUSED, UNUSED, UNUSED, copy_at(1, 5, 1)];
    let left = vec![
        ("kept-control", control(&[record(0, 1, 1, &[])], &frames)),
        ("kept-list", list::at_depths(&stored, &[2, 1, 0])),
        ("taken-control", control(&[record(0, 0, 0, &[]), record(0, 0, 1, &[])], &taken)),
    ];
    Script { name: "depths", files: vec![("snapshot", snapshot::trials(1, &snapshot::slots()))], left }
}

/// What the script writes, field after field, and nothing of what is refused.
fn records() -> Script {
    let longs = |numbers: &[u64]| numbers.iter().flat_map(|number| number.to_le_bytes()).collect::<Vec<u8>>();
    let page = |page: &[u8], parts: &[(usize, Vec<u8>)]| parts.iter().fold(page.to_vec(), |page, (at, bytes)| patched(&page, *at, bytes));
    let location = [longs(&[0x0100_0000, 9]), words([u32::MAX as usize, 16_909_060])].concat();
    let buffer = (3, longs(&[0x0700_0000_0200, 32]));
    let event = (0x41, longs(&[0x0300_0004, 6, 0x1_0700_0000_0000, u64::MAX]));
    let around = [(0, vec![0xee; 21]), (0x40, vec![0xee; 35])];
    let returned = [(0x123, longs(&[1, u64::MAX - 1, 0])), (0x300, longs(&[1]))];
    let call = (0x7d1, longs(&[1, 2, 0x0300_0000, 8, 0x0700_0000_0200, 3]));

    let stack = page(&[0; PAGE], &[(7, location)]);
    let heap = page(&[0; PAGE], &[around.as_slice(), &[buffer, event], &returned].concat());
    let copy = page(&snapshot::slots()[..PAGE], &[call, (0, longs(&[1, 7, 7]))]);
    let frames = [entry(STACK, 0, 0, 4_095), entry(HEAP, 0, 0, 0), entry(HEAP, 0, 0, 1), entry(COPY, 0, 5, 0)];
    let left = vec![
        ("records-control", control(&[record(0, 1, 2, &[])], &frames)),
        ("records-list", list::list(&[(5, 0, &copy)])),
        ("records-pool", [stack, heap, vec![0; PAGE], copy].concat()),
    ];
    Script { name: "records", files: vec![("snapshot", snapshot::trials(1, &snapshot::slots()))], left }
}

/// What begin and the same calls leave in each edition: their control blocks differ in the edition, pools and lists do not.
fn editions() -> Script {
    let stack = entry(STACK, 0, 0, 4_095);
    let begun = control(&[record(0, 1, 0, &[])], &[stack, UNUSED, UNUSED, UNUSED]);
    let called = control(&[record(0, 1, 1, &[])], &[stack, entry(HEAP, 0, 0, 0), UNUSED, entry(COPY, 0, 1, 0)]);
    let copy = patched(&[snapshot::code(), vec![0; 84]].concat(), 1, &[0xee]);
    let pool = patched(&patched(&[0; 4 * PAGE], 0, &[42]), 3 * PAGE, &copy);
    let list = list::list(&[(1, 0, &copy)]);
    let older =
        [("older-begun", older(&begun)), ("older-control", older(&called)), ("older-pool", pool.clone()), ("older-list", list.clone())];
    let newer = [("newer-begun", begun), ("newer-control", called), ("newer-pool", pool), ("newer-list", list)];
    let files = vec![("snapshot", snapshot::trials(1, &snapshot::slots()))];
    Script { name: "editions", files, left: older.into_iter().chain(newer).collect() }
}

/// Account 3 has no data, so that its entry is valid until the script damages it.
fn inspect() -> Script {
    let snapshot = with_word(&snapshot::inspected(), account_at(3) + LENGTH, 0);
    let (control, pool) = (data::control::inspected(), vec![0; 6 * PAGE]);
    let short = |bytes: &[u8]| bytes[..bytes.len() - 1].to_vec();
    let short = [("short-control", short(&control)), ("short-pool", short(&pool))];
    let files = [("snapshot", snapshot), ("control", control), ("pool", pool)].into_iter().chain(short);
    Script { name: "inspect", files: files.collect(), left: Vec::new() }
}

fn bookings() -> Script {
    let page = &list::trial_slots()[PAGE..];
    let pool = patched(&patched(&[0; 3 * PAGE], 2 * PAGE, page), PAGE, &[9; 8]);
    let left = [("no-bookings", list::list(&[])), ("bookings", list::list(&[(5, 1, page)])), ("pool", pool)];
    Script { name: "bookings", files: vec![("snapshot", snapshot::trials(1, &snapshot::slots()))], left: left.into() }
}

impl Script {
    fn text(&self) -> String {
        fs::read_to_string(folder().join(self.name).with_extension("txt")).expect("the script is in the folder")
    }

    /// Runs this text in place of the script's own.
    fn run(&self, text: &str) -> (Came, Folder) {
        let folder = Folder::new(self.name);
        self.files.iter().for_each(|(path, bytes)| folder.put(path, &bytes.into()));
        folder.put("script", &text.into());
        (tool::run(folder.path(), &["run", "snapshot", "script"]), folder)
    }
}

fn folder() -> PathBuf {
    PathBuf::from(concat!(env!("CARGO_MANIFEST_DIR"), "/tests/scripts"))
}

#[test]
fn every_expectation_is_met() {
    for script in scripts() {
        let (came, folder) = script.run(&script.text());
        assert_eq!((came.status, came.errors.as_str()), (0, ""), "{}", script.name);
        for (path, bytes) in &script.left {
            assert!(folder.bytes(path).as_ref() == Some(bytes), "{}: {path} does not hold what it has to", script.name);
        }
    }
}

#[test]
fn every_script_is_run() {
    let run: BTreeSet<String> = scripts().iter().map(|script| format!("{}.txt", script.name)).collect();
    let there = fs::read_dir(folder()).expect("there is a folder of scripts");
    let there: BTreeSet<String> = there.map(|file| file.expect("it can be read").file_name().to_string_lossy().into_owned()).collect();
    assert_eq!(run, there);
}

#[test]
fn every_call_has_an_expectation() {
    for script in scripts() {
        let text = script.text();
        let calls = text.lines().map(|line| line.split('#').next().unwrap_or_default()).filter(|line| is_call(line));
        let (with, without): (Vec<&str>, Vec<&str>) = calls.partition(|line| line.contains("=>"));
        assert!(!with.is_empty() && without.is_empty(), "{}: nothing is expected of {without:?}", script.name);
    }
}

fn is_call(line: &str) -> bool {
    line.split_whitespace().next().is_some_and(|statement| !NO_CALLS.contains(&statement))
}

/// Every expected number, byte and mark is read: with another in its place the run fails, at that line and no other.
#[test]
fn no_expectation_is_idle() {
    for script in scripts() {
        let text = script.text();
        let lines: Vec<&str> = text.lines().collect();
        for (at, line) in lines.iter().enumerate() {
            for altered in alterations(line) {
                let others = [&lines[..at], &[altered.as_str()], &lines[at + 1..]].concat().join("\n");
                let (came, _folder) = script.run(&others);
                let complaints: Vec<&str> = came.errors.lines().collect();
                let place = format!("script:{}:{}: expected ", at + 1, line.find("=>").unwrap_or(0) + 1);
                let named = matches!(complaints[..], [first, last] if first.starts_with(&place) && last.starts_with("script: 1 of "));
                assert!(named && came.status == 1, "{}: '{altered}' gave status {}\n{}", script.name, came.status, came.errors);
            }
        }
    }
}

/// The line with one word of what it expects changed, for each of these words. Which words may follow a number depends on it, so they go
/// with it.
fn alterations(line: &str) -> Vec<String> {
    let line = line.split('#').next().unwrap_or_default();
    let Some((statement, expected)) = line.split_once("=>") else {
        return Vec::new();
    };
    let words: Vec<&str> = expected.split_whitespace().collect();
    let alter = |at: usize| {
        let mut words: Vec<String> = words.iter().map(|word| word.to_string()).collect();
        words[at] = other(&words[at]);
        words.truncate(if at == 0 { 1 } else { words.len() });
        format!("{statement}=> {}", words.join(" "))
    };
    (0..words.len()).filter(|&at| !NAMES.contains(&words[at])).map(alter).collect()
}

/// Another word of the same kind: its last digit or mark is another.
fn other(word: &str) -> String {
    let (start, last) = word.split_at(word.len() - 1);
    let last = match last {
        "0" => "1",
        "." => "A",
        "A" | "S" | "H" | "?" => ".",
        _ => "0",
    };
    format!("{start}{last}")
}
