//! Where the tool's output goes: streams and files that cannot be written, both streams in one file, the same text for several words.
//! And what does not fit into memory.

mod common;
mod data;

use common::folder::{Content, Folder};
use common::tool::{self, Came};
use data::control::{booked, booked_pool};
use data::list::booking;
use data::snapshot::{slots, sound_mill};
use std::ffi::OsString;
use std::fs::{self, File};
use std::process::Command;

/// A folder with a snapshot and a script whose second statement is refused.
fn folder(name: &str) -> Folder {
    let folder = Folder::new(name);
    folder.put("snapshot", &sound_mill().into());
    folder.put("script", &"begin 0\nbegin 9\nmap\n".into());
    folder
}

/// A file that takes no byte.
fn full() -> File {
    File::options().write(true).open("/dev/full").expect("there is a full device")
}

#[test]
fn standard_output_that_is_full() {
    let folder = folder("full-output");
    for words in ["demo", "--help", "--version", "show snapshot", "run snapshot script"] {
        let came = tool::came(tool::command(folder.path()).args(words.split(' ')).stdout(full()));
        let sentence = "hekthumar: standard output: No space left on device (os error 28)\n";
        assert_eq!((came.status, came.errors.as_str()), (1, sentence), "{words}");
    }
}

#[test]
fn standard_output_that_nobody_reads() {
    let (reader, writer) = std::io::pipe().expect("there is a pipe");
    drop(reader);
    let came = tool::came(tool::command(Folder::new("nobody").path()).arg("demo").stdout(writer));
    assert_eq!((came.status, came.errors.as_str()), (1, "hekthumar: standard output: Broken pipe (os error 32)\n"));
}

#[test]
fn standard_error_that_is_full() {
    let folder = folder("full-errors");
    let came = tool::came(tool::command(folder.path()).args(["run", "snapshot", "script"]).stderr(full()));
    assert_eq!(came.status, 1);
    assert!(
        came.output.ends_with("longest free run 15 (frames 1 to 15)\n  frame 0: stack, page 4095, tag 0\n"),
        "the script was not carried out to its end: {}",
        came.output
    );
}

/// What is wrong with a statement stands behind its answer, and before the next statement.
#[test]
fn both_streams_in_one_file() {
    let folder = folder("both-streams");
    let file = File::create(folder.path().join("both")).expect("the folder can be written to");
    let second = file.try_clone().expect("a file can be shared");
    let status = tool::command(folder.path()).args(["run", "snapshot", "script"]).stdout(file).stderr(second).status();
    assert_eq!(status.expect("the tool can be started").code(), Some(1));
    let both = String::from_utf8(folder.bytes("both").expect("the file is there")).expect("it holds text");
    let starts = [
        "begin 0",
        "  0 done",
        "begin 9",
        "  4 ",
        "    there is no account 9",
        "script:2:1: ",
        "map",
        "pool ",
        "     0 ",
        "  copies at the top 0, stack and heap at the bottom 1, ",
        "  frame 0: ",
        "script: 1 of 3 ",
    ];
    let lines: Vec<&str> = both.lines().collect();
    assert_eq!(lines.len(), starts.len(), "{both}");
    assert!(lines.iter().zip(starts).all(|(line, start)| line.starts_with(start)), "{both}");
}

#[test]
fn help_and_version_in_other_words() {
    let folder = Folder::new("other-words");
    let came = |words: &str| tool::run(folder.path(), &words.split(' ').collect::<Vec<_>>()).text();
    for words in ["-h", "help", "run --help", "apply a b -h", "explain --help", "--version -h"] {
        assert_eq!(came(words), came("--help"), "{words}");
    }
    assert_eq!(came("-V"), came("--version"));
    assert_eq!(came("-V again"), came("--version again"));
}

/// The order of the files is that of what is shown, and nothing else.
#[test]
fn files_in_any_order() {
    let folder = folder("any-order");
    folder.put("control", &booked().into());
    folder.put("pool", &booked_pool().into());
    let files = ["snapshot", "control", "pool"];
    let orders = [[0, 1, 2], [0, 2, 1], [1, 0, 2], [1, 2, 0], [2, 0, 1], [2, 1, 0]].map(|order| order.map(|at: usize| files[at]));
    let shown = |words: &[&str]| tool::run(folder.path(), &[&["show"], words].concat());
    let parts: Vec<String> = shown(&files).output.trim_end().split("\n\n").map(String::from).collect();
    assert!(parts[1].contains("valid with this snapshot and this pool"), "{parts:?}");
    for order in orders {
        let came = shown(&order);
        let wanted = order.map(|file| parts[files.iter().position(|known| *known == file).expect("it is one of them")].as_str());
        assert_eq!((came.output.trim_end(), came.errors.as_str(), came.status), (wanted.join("\n\n").as_str(), "", 0));
    }
}

/// A run under a limit that the shell sets, with the signal ignored by which the system would end it.
fn limited(folder: &Folder, limit: &str, words: &[&str]) -> Came {
    let script = format!("trap '' XFSZ; ulimit {limit}; exec \"$0\" \"$@\"");
    tool::came(Command::new("sh").args(["-c", &script, env!("CARGO_BIN_EXE_hekthumar")]).args(words).current_dir(folder.path()))
}

/// No room for what is to stand in place of a file: the file stays, and nothing else is left.
#[test]
fn a_file_that_cannot_be_replaced_stays() {
    let folder = Folder::new("stays");
    folder.put("list", &booking().into());
    folder.put("slots", &slots().into());
    let came = limited(&folder, "-f 1", &["apply", "list", "1", "slots", "slots"]);
    let sentence = "hekthumar: slots: cannot be written: File too large (os error 27)\n";
    assert_eq!((came.status, came.output.as_str(), came.errors.as_str()), (1, "", sentence));
    assert_eq!(folder.bytes("slots"), Some(slots()));
    let files = fs::read_dir(folder.path()).expect("the folder can be read");
    let mut left: Vec<OsString> = files.map(|file| file.expect("it is there").file_name()).collect();
    left.sort();
    assert_eq!(left, ["list", "slots"]);
}

/// A file that the library sets no limit, longer than the memory that there is.
#[test]
fn a_file_that_does_not_fit_into_memory() {
    let folder = Folder::new("memory");
    folder.put("list", &Content::Zeros(1 << 30));
    let came = limited(&folder, "-v 524288", &["show", "list"]);
    let sentence = "hekthumar: list: its 1073741824 bytes do not fit into memory\n";
    assert_eq!((came.status, came.errors.as_str()), (1, sentence));
}
