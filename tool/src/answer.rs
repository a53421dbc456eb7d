//! What a statement was answered with, as it is printed and as a script may expect it.

use crate::text::hex;
use hekthumar::Refusal;
use std::fmt;

/// A part of an answer that a script may expect.
#[derive(Clone, Debug, PartialEq, Eq)]
pub enum Fact {
    /// A count or a place, in decimal digits.
    Number(u64),
    /// What was loaded, or a register, in hexadecimal digits.
    Value(u64),
    Bytes(Vec<u8>),
    Word(String),
}

impl Fact {
    /// The fact of a word.
    pub fn word(word: &str) -> Fact {
        Fact::Word(word.to_string())
    }
}

impl fmt::Display for Fact {
    fn fmt(&self, f: &mut fmt::Formatter<'_>) -> fmt::Result {
        match self {
            Fact::Number(number) => write!(f, "{number}"),
            Fact::Value(value) => write!(f, "{value:#x}"),
            Fact::Bytes(bytes) => f.write_str(&hex(bytes)),
            Fact::Word(word) => f.write_str(word),
        }
    }
}

/// Facts with spaces between them.
pub fn listed(facts: &[Fact]) -> String {
    facts.iter().map(Fact::to_string).collect::<Vec<_>>().join(" ")
}

/// The answer to a statement.
#[derive(Default)]
pub struct Answer {
    /// What is printed, a line each.
    pub lines: Vec<String>,
    /// What a script may expect; of a call the number comes first.
    pub facts: Vec<Fact>,
    /// Why the call was refused, if it was.
    pub refusal: Option<Refusal>,
    /// What to look out for.
    pub warning: Option<&'static str>,
}

impl Answer {
    /// The answer of a call that was accepted: what follows "0 done" on its line, and the facts after the number.
    pub fn done(rest: &str, facts: impl IntoIterator<Item = Fact>) -> Answer {
        let facts = std::iter::once(Fact::Number(0)).chain(facts).collect();
        Answer { lines: vec![format!("  0 done{rest}")], facts, ..Answer::default() }
    }

    /// The answer of a call that was refused, with the reason behind its number.
    pub fn refused(refusal: Refusal, reason: Option<String>) -> Answer {
        let number = refusal.number();
        let mut lines = vec![format!("  {number} {}", refusal.sentence())];
        lines.extend(reason.map(|reason| format!("    {reason}")));
        Answer { lines, facts: vec![Fact::Number(number.into())], refusal: Some(refusal), warning: None }
    }

    /// Something that was done without a call.
    pub fn note(line: String) -> Answer {
        Answer { lines: vec![line], ..Answer::default() }
    }

    /// The same answer with more lines.
    pub fn and(mut self, lines: impl IntoIterator<Item = String>) -> Answer {
        self.lines.extend(lines);
        self
    }
}
