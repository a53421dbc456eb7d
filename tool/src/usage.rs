//! How the commands and the statements are written.

use crate::script::forms::FORMS;
use crate::script::Layout;
use hekthumar::Refusal;
use std::fmt::Write;

/// A command, the words after it, and what it does.
pub struct Command {
    pub name: &'static str,
    pub words: &'static str,
    about: &'static str,
}

/// Every command.
#[rustfmt::skip]
pub const COMMANDS: [Command; 6] = [
    Command { name: "demo", words: "", about: "two bookings at a rice mill, step by step" },
    Command { name: "run", words: "SNAPSHOT SCRIPT", about: "carries out a script" },
    Command { name: "show", words: "FILE..", about: "what snapshots, control blocks, pools and change lists hold" },
    Command { name: "apply", words: "LIST ACCOUNT DATA OUT", about: "applies a change list to an account's data" },
    Command { name: "--help", words: "", about: "all of this, and the statements of a script" },
    Command { name: "--version", words: "", about: "the version" },
];

/// The commands, a line each, without a line end after the last.
pub fn commands() -> String {
    let line = |command: &Command| format!("  {:<38}{}", format!("hekthumar {} {}", command.name, command.words), command.about);
    format!("usage:\n{}", COMMANDS.iter().map(line).collect::<Vec<_>>().join("\n"))
}

/// Everything that there is to know.
pub fn whole() -> String {
    let mut text = format!("{}\n{SHOW}{SCRIPT}", commands());
    for form in &FORMS {
        let _ = writeln!(text, "  {:<31} {}", format!("{} {}", form.name, form.words), form.about);
    }
    text.push_str(EDITION);
    text.push_str(RECORDS);
    for record in Layout::ALL {
        let _ = writeln!(text, "  {:<11} {}  {}", record.name(), record.bytes(), record.fields());
    }
    text.push_str(EXPECT);
    for form in FORMS.iter().filter(|form| !form.answer.is_empty()) {
        let _ = writeln!(text, "  {:<12} => {}", form.name, form.answer);
    }
    text.push_str("\nNumbers given back:\n  0 done\n");
    for refusal in Refusal::ALL {
        let _ = writeln!(text, "  {} {}", refusal.number(), refusal.sentence());
    }
    text.push_str(STATUS);
    text
}

const SHOW: &str = "
show tells by its bytes what a file is; snapshot=FILE, control=FILE, pool=FILE or list=FILE says it. With
a snapshot or a pool beside it a control block is judged by those too, and a list by the snapshot.
";

const SCRIPT: &str = "
A script has one statement to a line. Blank lines and what follows # are skipped. Numbers are
decimal, or hexadecimal after 0x, with _ between digits where it helps. Nothing is carried out
unless every line can be read.
";

const EDITION: &str = "
EDITION is older or newer; newer otherwise. In the newer a program is fetched from 0x000003000000 on. In
the older that is no segment, and a program is fetched from its account's data, from 0x03XXXX000000 on,
where XXXX is its account's number in hexadecimal digits.
";

const RECORDS: &str = "
A RECORD, its bytes in memory and its FIELDs in order. A pointer is an address and is not checked; a
DISCRIMINANT is 0 (Ok) or 1 (Err), and any other is refused with 14.
";

const EXPECT: &str = "
After => a statement says what it expects; words at the end may be left out. PLACE is snapshot,
control, zeros, pool or take (a frame that would be taken for a copy), MARKS are those of the map.
DISTANCE is how many bytes of an access come before the first that is not there. DEPTHs are those of
the listed pages in order. A call that is refused without => is unexpected.
";

const STATUS: &str = "
Exit status: 0 done; 1 a call was not answered as expected, a file is bad, or reading or writing
failed; 2 wrong use.
";
