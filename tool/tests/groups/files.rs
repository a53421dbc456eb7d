//! Files that are not there, are none, or cannot be written.

use super::case::Case;
use crate::common::folder::Content;
use crate::data::control::{booked, booked_pool};
use crate::data::layout::{control_length, MAX_FRAMES, PAGE};
use crate::data::list::booking;
use crate::data::snapshot::{slots, sound_mill};

/// A script that lends files.
const RESUMES: &str = "begin 0\n resume control pool\nlist\n";

pub fn cases() -> Vec<Case> {
    [missing(), not_files(), lent(), long(), names(), written()].into_iter().flatten().collect()
}

/// A command with every file that it reads.
fn ready(name: impl Into<String>, words: &str) -> Case {
    let case = Case::new(name, words).with("snapshot", sound_mill()).with("script", "begin 0\n");
    case.with("list", booking()).with("slots", slots()).leaves_no("kept")
}

fn missing() -> Vec<Case> {
    vec![
        ready("run-no-snapshot", "run nothing script"),
        ready("run-no-script", "run snapshot nothing"),
        ready("show-no-file", "show snapshot nothing"),
        ready("show-no-file-prefix", "show pool=nothing"),
        ready("show-no-name", "show snapshot="),
        ready("apply-no-list", "apply nothing 1 slots kept"),
        ready("apply-no-data", "apply list 1 nothing kept"),
    ]
}

/// Each argument that is to be a file, with things that are none, and with a file without bytes.
fn not_files() -> Vec<Case> {
    let socket = ready("file-show-socket", "show socket").with("socket", Content::Socket);
    let arguments = [
        ("run-snapshot", "run PATH script"),
        ("run-script", "run snapshot PATH"),
        ("show", "show PATH"),
        ("show-control", "show control=PATH"),
        ("apply-list", "apply PATH 1 slots kept"),
        ("apply-data", "apply list 1 PATH kept"),
    ];
    let things = [("folder", "folder"), ("fifo", "fifo"), ("device", "/dev/zero"), ("empty", "empty")];
    let all = arguments.iter().flat_map(|argument| things.iter().map(move |thing| (argument, thing)));
    let cases = all.map(|((argument, words), (thing, path))| {
        let case = ready(format!("file-{argument}-{thing}"), &words.replace("PATH", path));
        case.with("folder", Content::Folder).with("fifo", Content::Fifo).with("empty", "")
    });
    cases.chain([socket]).collect()
}

/// The files of `resume`: the script ends where they cannot be read.
fn lent() -> Vec<Case> {
    let resume =
        |name, control: Content, pool: Content| Case::script(name, sound_mill(), RESUMES).with("control", control).with("pool", pool);
    let zeros = |length| Content::Zeros(length as u64);
    vec![
        Case::script("resume-no-control", sound_mill(), RESUMES),
        Case::script("resume-no-pool", sound_mill(), RESUMES).with("control", booked()),
        resume("resume-folder", Content::Folder, booked_pool().into()),
        resume("resume-fifo", booked().into(), Content::Fifo),
        resume("resume-long-control", zeros(control_length(MAX_FRAMES) + 1), booked_pool().into()),
        resume("resume-long-pool", booked().into(), zeros(PAGE * MAX_FRAMES + 1)),
        resume("resume-longest", zeros(control_length(MAX_FRAMES)), zeros(PAGE * MAX_FRAMES)),
    ]
}

/// Files that are longer than anything that the library takes; they are not read.
fn long() -> Vec<Case> {
    let huge = || Content::Zeros(3 << 30);
    vec![
        ready("run-huge-snapshot", "run huge script").with("huge", huge()),
        ready("show-huge-snapshot", "show snapshot=huge").with("huge", huge()),
        ready("show-huge-pool", "show pool=huge").with("huge", huge()),
    ]
}

/// Names that a terminal would obey, or that are no text.
fn names() -> Vec<Case> {
    let odd: &[u8] = b"\x1b]0;mill\x07\xff";
    vec![
        Case::raw("show-escape", &[b"show", odd]).with(odd, sound_mill()),
        Case::raw("show-no-escape", &[b"show", b"\x1b[2J\n\xc2\x85"]),
        Case::raw("run-escape-names", &[b"run", odd, b"\x1b[1mscript"]).with(odd, sound_mill()).with(b"\x1b[1mscript", "begin 9\n"),
        Case::raw("apply-escape", &[b"apply", b"list", b"1", b"slots", b"\x1b[2Jkept"]).with("list", booking()).with("slots", slots()),
    ]
}

/// Files that cannot be written: no room, no folder, something else in the way.
fn written() -> Vec<Case> {
    let save = |name, statement: &str| Case::script(name, sound_mill(), format!("begin 0\n{statement}\nmap\n"));
    vec![
        ready("apply-full", "apply list 1 slots /dev/full"),
        ready("apply-no-folder", "apply list 1 slots nowhere/kept"),
        ready("apply-folder", "apply list 1 slots folder").with("folder", Content::Folder),
        ready("apply-fifo", "apply list 1 slots fifo").with("fifo", Content::Fifo),
        save("save-control-full", "save-control /dev/full"),
        save("save-pool-full", "save-pool /dev/full"),
        save("save-list-full", "save-list /dev/full"),
        save("save-no-folder", "  save-list nowhere/kept"),
        save("save-folder", "save-pool folder").with("folder", Content::Folder),
        save("save-fifo", "save-control fifo").with("fifo", Content::Fifo),
    ]
}
