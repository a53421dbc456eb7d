//! How each statement is written.

use super::words::Word;
use super::Layout;

/// A statement's name, the words after it, the words that may be expected of it after `=>`, and what it does. A number after | has words
/// of its own. RECORD and FIELD.. stand for a record's name and the words for its fields.
pub struct Form {
    pub name: &'static str,
    pub words: &'static str,
    pub answer: &'static str,
    pub about: &'static str,
}

/// Every statement.
#[rustfmt::skip]
pub const FORMS: [Form; 22] = [
    form("frames", "N", "", "lends a pool of N frames, 0 to 1024, before begin; 16 otherwise"),
    form("resume", "CONTROL POOL", "", "lends a saved control block and a saved pool"),
    form("begin", "PROGRAM [PAGES] [EDITION]", "NUMBER", "begins a program: an account's number; PAGES of stack, 0 or 1; 1 otherwise"),
    form("load", "ADDRESS SIZE", "NUMBER [VALUE] | 13 [DISTANCE]", "loads 1, 2, 4 or 8 bytes as a number"),
    form("fetch", "ADDRESS SIZE", "NUMBER [VALUE] | 13 [DISTANCE]", "the same of the program"),
    form("store", "ADDRESS SIZE VALUE", "NUMBER | 13 [DISTANCE]", "stores the low bytes of a number"),
    form("load-span", "ADDRESS LENGTH", "NUMBER [BYTES] | 13 [DISTANCE]", "loads 1 to 4096 bytes of one page"),
    form("store-span", "ADDRESS BYTES", "NUMBER | 13 [DISTANCE]", "stores them; BYTES are pairs of hexadecimal digits"),
    form("read", "RECORD ADDRESS", "NUMBER [FIELD..] | 13 [DISTANCE]", "reads a record, as one load-span of its bytes"),
    form("write", "RECORD ADDRESS FIELD..", "NUMBER | 13 [DISTANCE]", "writes a record, as one store-span"),
    form("translate", "KIND ADDRESS LENGTH", "NUMBER [PLACE [OFFSET [FRAME ACCOUNT PAGE]]] | 13 [DISTANCE]",
        "where an access would go; KIND is load, store, fetch, load-span or store-span"),
    form("call", "PROGRAM [VALUE]", "NUMBER", "calls a program; VALUE goes into register 0, zeros into the others"),
    form("return", "", "NUMBER [REGISTER..]", "returns; prints the registers that are not zero"),
    form("stack", "N", "NUMBER", "gives the stack N pages"),
    form("heap", "N", "NUMBER", "gives the heap N pages"),
    form("view", "ACCOUNT PAGE", "NUMBER [BUFFER [START [LENGTH]]]", "where an account's page lies, and its first bytes"),
    form("list", "", "NUMBER [PAGES [DEPTH..]]", "the entries of the change list, with the depth of each page's first store"),
    form("map", "", "MARKS", "the pool's frames, what lies in them, and the longest free run"),
    form("poke", "BUFFER OFFSET BYTES", "", "writes into the snapshot, control or pool behind the library's back"),
    form("save-control", "FILE", "", "writes the control block to a file, for show and resume"),
    form("save-pool", "FILE", "", "writes the pool to a file, for show and resume"),
    form("save-list", "FILE", "NUMBER", "writes the change list to a file, for show and apply"),
];

/// What stands for a record's name, and for the words of its fields.
const RECORD: &str = "RECORD";
const FIELDS: &str = "FIELD..";

const fn form(name: &'static str, words: &'static str, answer: &'static str, about: &'static str) -> Form {
    Form { name, words, answer, about }
}

impl Form {
    /// The form of the statement with this name.
    pub fn of(name: &[u8]) -> Option<&'static Form> {
        FORMS.iter().find(|form| form.name.as_bytes() == name)
    }

    /// The record that the next word names, if the statement has one there.
    pub fn record(&self, next: Option<Word>) -> Option<Layout> {
        next.filter(|_| self.words.starts_with(RECORD)).and_then(|word| Layout::named(word.text))
    }

    /// The names of the words that may be expected of the statement, of a record if it names one, in each alternative.
    pub fn answers(&self, record: Option<Layout>) -> Vec<Vec<&'static str>> {
        let name = |word: &'static str| match (word.trim_matches(['[', ']']), record) {
            (FIELDS, Some(record)) => record.fields().split(' ').collect(),
            (name, _) => vec![name],
        };
        self.answer.split(" | ").map(|words| words.split(' ').flat_map(name).collect()).collect()
    }

    /// The statement as it is written, of a record if it names one, with what may be expected of it.
    pub fn usage(&self, record: Option<Layout>) -> String {
        let words = if self.words.is_empty() { String::new() } else { format!(" {}", self.words) };
        let answer = if self.answer.is_empty() { String::new() } else { format!(" [=> {}]", self.answer) };
        let usage = format!("{}{words}{answer}", self.name);
        match record {
            Some(record) => usage.replace(RECORD, record.name()).replace(FIELDS, record.fields()),
            None => usage,
        }
    }
}
