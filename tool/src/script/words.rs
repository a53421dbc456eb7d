//! The words of a line, each with its column.

use crate::numbers;
use crate::text::printable;
use std::ffi::OsStr;
use std::os::unix::ffi::OsStrExt;
use std::path::PathBuf;

/// The sign between a statement and what is expected of it.
pub const EXPECT: &[u8] = b"=>";

/// What is wrong, and at which column.
pub struct Mistake {
    pub column: usize,
    pub mistake: String,
}

impl Mistake {
    pub fn new(column: usize, mistake: impl Into<String>) -> Mistake {
        Mistake { column, mistake: mistake.into() }
    }
}

/// A word and the column that it starts in.
#[derive(Clone, Copy, Debug, PartialEq, Eq)]
pub struct Word<'a> {
    pub text: &'a [u8],
    pub column: usize,
}

impl Word<'_> {
    /// The word in quotes, as it may be printed.
    pub fn quoted(&self) -> String {
        format!("'{}'", printable(self.text))
    }
}

/// The words of a line that are still to be read.
pub struct Words<'a> {
    rest: Vec<Word<'a>>,
    /// The column after the line's last word.
    end: usize,
}

impl<'a> Words<'a> {
    /// The words of a line. What follows # is no word.
    pub fn of(line: &'a [u8]) -> Words<'a> {
        let line = line.split(|&byte| byte == b'#').next().unwrap_or_default();
        let mut rest = Vec::new();
        let mut at = 0;
        for text in line.split(|byte| b" \t\r".contains(byte)) {
            if !text.is_empty() {
                rest.push(Word { text, column: column(line, at) });
            }
            at += text.len() + 1;
        }
        let end = rest.last().map_or(1, |word| word.column + characters(word.text));
        rest.reverse();
        Words { rest, end }
    }

    /// The next word, if there is one and it is not the sign before what is expected.
    pub fn peek(&self) -> Option<Word<'a>> {
        self.rest.last().copied().filter(|word| word.text != EXPECT)
    }

    /// The sign before what is expected, if it comes next.
    pub fn expects(&mut self) -> Option<Word<'a>> {
        self.rest.pop_if(|word| word.text == EXPECT)
    }

    /// The next word, which is to be this.
    pub fn next(&mut self, what: &str) -> Result<Word<'a>, Mistake> {
        let end = self.rest.last().map_or(self.end, |word| word.column);
        match self.peek() {
            Some(word) => {
                self.rest.pop();
                Ok(word)
            }
            None => Err(Mistake::new(end, format!("{what} is missing"))),
        }
    }

    /// No word is left.
    pub fn end(&self) -> Result<(), Mistake> {
        match self.rest.last() {
            None => Ok(()),
            Some(word) => Err(Mistake::new(word.column, format!("a word too many: {}", word.quoted()))),
        }
    }

    /// A number of at most 64 bits.
    pub fn number(&mut self, what: &str) -> Result<u64, Mistake> {
        let word = self.next(what)?;
        let rule = "decimal, or hexadecimal after 0x, of 64 bits at most, with _ between digits";
        numbers::number(word.text)
            .ok_or_else(|| Mistake::new(word.column, format!("{what} is to be a number ({rule}); found {}", word.quoted())))
    }

    /// A number with a limit.
    pub fn at_most(&mut self, what: &str, most: u64) -> Result<u64, Mistake> {
        let column = self.peek().map_or(self.end, |word| word.column);
        let number = self.number(what)?;
        if number > most {
            return Err(Mistake::new(column, format!("{what} is at most {most}; found {number}")));
        }
        Ok(number)
    }

    /// The number of an account, a program or a page.
    pub fn short(&mut self, what: &str) -> Result<u16, Mistake> {
        self.at_most(what, u16::MAX.into()).map(|number| number as u16)
    }

    /// Pairs of hexadecimal digits.
    pub fn bytes(&mut self, what: &str) -> Result<Vec<u8>, Mistake> {
        let word = self.next(what)?;
        let rule = "pairs of hexadecimal digits without 0x";
        numbers::bytes(word.text).ok_or_else(|| Mistake::new(word.column, format!("{what} are to be {rule}; found {}", word.quoted())))
    }

    /// One of some names, by its place among them.
    pub fn choice(&mut self, what: &str, names: &[&str]) -> Result<usize, Mistake> {
        let word = self.next(what)?;
        let found = names.iter().position(|name| name.as_bytes() == word.text);
        found.ok_or_else(|| Mistake::new(word.column, format!("{what} is {}; found {}", names.join(" or "), word.quoted())))
    }

    /// The path of a file.
    pub fn path(&mut self, what: &str) -> Result<PathBuf, Mistake> {
        self.next(what).map(|word| PathBuf::from(OsStr::from_bytes(word.text)))
    }
}

/// The column of a place in a line: characters before it, and one.
fn column(line: &[u8], at: usize) -> usize {
    characters(&line[..at]) + 1
}

/// Characters of text in UTF-8: every byte but those that go on with one.
fn characters(text: &[u8]) -> usize {
    text.iter().filter(|&&byte| byte & 0xC0 != 0x80).count()
}
