//! From the bytes of a script to its statements.

use super::forms::Form;
use super::words::{Mistake, Word, Words};
use super::{Buffer, Complaint, Expected, Layout, Line, Statement};
use crate::answer::Fact;
use crate::edition;
use crate::text::printable;
use hekthumar::layout::MAX_FRAMES;
use hekthumar::{Address, Edition, Kind, Refusal, Region};

const KINDS: [&str; 5] = ["load", "store", "fetch", "load-span", "store-span"];
const BUFFERS: [&str; 3] = ["snapshot", "control", "pool"];

/// The statements of a script, or what is wrong with each line.
pub fn script(text: &[u8]) -> Result<Vec<Line>, Vec<Complaint>> {
    let (mut lines, mut complaints): (Vec<Line>, Vec<Complaint>) = Default::default();
    for (number, text) in text.split(|&byte| byte == b'\n').enumerate().map(|(i, text)| (i + 1, text)) {
        match line(number, text) {
            Ok(None) => {}
            Ok(Some(line)) => {
                complaints.extend(late(&lines, &line));
                lines.push(line);
            }
            Err(complaint) => complaints.push(complaint),
        }
    }
    if complaints.is_empty() {
        Ok(lines)
    } else {
        Err(complaints)
    }
}

/// The pool's size is set before anything is in it.
fn late(before: &[Line], line: &Line) -> Option<Complaint> {
    let begun = |line: &Line| matches!(line.statement, Statement::Begin { .. } | Statement::Resume { .. });
    let late = matches!(line.statement, Statement::Frames(_)) && before.iter().any(begun);
    let mistake = "the pool's size is set before the first begin or resume";
    late.then(|| Complaint { line: line.number, column: line.column, mistake: mistake.to_string(), usage: None })
}

/// The statement of a line, if it has one.
fn line(number: usize, text: &[u8]) -> Result<Option<Line>, Complaint> {
    let mut words = Words::of(text);
    let Ok(name) = words.next("a statement") else {
        return match words.end() {
            Ok(()) => Ok(None),
            Err(Mistake { column, .. }) => {
                Err(Complaint { line: number, column, mistake: "there is no statement before =>".to_string(), usage: None })
            }
        };
    };
    let Some(form) = Form::of(name.text) else {
        let mistake = format!("there is no statement {}; hekthumar --help lists them", name.quoted());
        return Err(Complaint { line: number, column: name.column, mistake, usage: None });
    };
    let record = form.record(words.peek());
    let read = statement(name, &mut words).and_then(|statement| Ok((statement, expected(form, record, &mut words)?)));
    match read {
        Ok((statement, expected)) => {
            let text = text.strip_suffix(b"\r").unwrap_or(text).to_vec();
            Ok(Some(Line { number, text, column: name.column, statement, expected }))
        }
        Err(Mistake { column, mistake }) => Err(Complaint { line: number, column, mistake, usage: Some(form.usage(record)) }),
    }
}

/// The statement with this name.
fn statement(name: Word, words: &mut Words) -> Result<Statement, Mistake> {
    let address = |words: &mut Words| words.number("ADDRESS").map(Address);
    let size = |words: &mut Words, what: &str| words.number(what).map(|number| number as usize);
    Ok(match name.text {
        b"frames" => Statement::Frames(words.at_most("N", MAX_FRAMES as u64)? as usize),
        b"resume" => Statement::Resume { control: words.path("CONTROL")?, pool: words.path("POOL")? },
        b"begin" => begin(words)?,
        b"load" => Statement::Load { address: address(words)?, size: size(words, "SIZE")? },
        b"fetch" => Statement::Fetch { address: address(words)?, size: size(words, "SIZE")? },
        b"store" => Statement::Store { address: address(words)?, size: size(words, "SIZE")?, value: words.number("VALUE")? },
        b"load-span" => Statement::LoadSpan { address: address(words)?, length: size(words, "LENGTH")? },
        b"store-span" => Statement::StoreSpan { address: address(words)?, bytes: words.bytes("BYTES")? },
        b"read" => Statement::Read { record: Layout::read(words)?, address: address(words)? },
        b"write" => {
            let (record, address) = (Layout::read(words)?, address(words)?);
            Statement::Write { address, content: record.content(words)? }
        }
        b"translate" => Statement::Translate { kind: kind(words)?, address: address(words)?, length: size(words, "LENGTH")? },
        b"call" => Statement::Call { program: words.short("PROGRAM")?, register: optional(words, "VALUE")?.unwrap_or(0) },
        b"return" => Statement::Return,
        b"stack" => Statement::Resize { region: Region::Stack, pages: size(words, "N")? },
        b"heap" => Statement::Resize { region: Region::Heap, pages: size(words, "N")? },
        b"view" => Statement::View { account: words.short("ACCOUNT")?, page: words.short("PAGE")? },
        b"list" => Statement::List,
        b"map" => Statement::Map,
        b"poke" => Statement::Poke { buffer: buffer(words)?, at: size(words, "OFFSET")?, bytes: words.bytes("BYTES")? },
        b"save-control" => Statement::SaveControl(words.path("FILE")?),
        b"save-pool" => Statement::SavePool(words.path("FILE")?),
        b"save-list" => Statement::SaveList(words.path("FILE")?),
        _ => return Err(Mistake::new(name.column, format!("{} cannot be carried out", name.quoted()))),
    })
}

/// A begin, whose pages and edition may be left out. What starts with a letter is no number, and so is taken for the edition.
fn begin(words: &mut Words) -> Result<Statement, Mistake> {
    let program = words.short("PROGRAM")?;
    let lettered = words.peek().is_some_and(|word| word.text.first().is_some_and(u8::is_ascii_alphabetic));
    let pages = if lettered { None } else { optional(words, "PAGES")?.map(|pages| pages as usize) };
    let edition = words.peek().map(|_| words.choice("EDITION", &edition::WORDS)).transpose()?;
    Ok(Statement::Begin { program, pages, edition: edition.map_or(Edition::Newer, |edition| edition::ALL[edition]) })
}

fn kind(words: &mut Words) -> Result<Kind, Mistake> {
    let kinds = [Kind::Load, Kind::Store, Kind::Fetch, Kind::LoadSpan, Kind::StoreSpan];
    words.choice("KIND", &KINDS).map(|kind| kinds[kind])
}

fn buffer(words: &mut Words) -> Result<Buffer, Mistake> {
    let buffers = [Buffer::Snapshot, Buffer::Control, Buffer::Pool];
    words.choice("BUFFER", &BUFFERS).map(|buffer| buffers[buffer])
}

/// A number that may be left out.
fn optional(words: &mut Words, what: &str) -> Result<Option<u64>, Mistake> {
    words.peek().map(|_| words.number(what)).transpose()
}

/// What a statement is expected to be answered with, as its form names the words. Then the line ends.
fn expected(form: &Form, record: Option<Layout>, words: &mut Words) -> Result<Option<Expected>, Mistake> {
    let Some(sign) = words.expects() else {
        return words.end().map(|()| None);
    };
    if form.answer.is_empty() {
        return Err(Mistake::new(sign.column, format!("nothing can be expected of {}", form.name)));
    }
    let answers = form.answers(record);
    let first = fact(answers[0][0], words)?;
    let number = first.to_string();
    let names = answers.iter().find(|names| names[0] == number).unwrap_or(&answers[0]);
    let mut facts = vec![first];
    let mut rest = names[1..].iter();
    while words.peek().is_some() {
        match rest.next().or(names.last().filter(|name| name.ends_with(".."))) {
            Some(name) => facts.push(fact(name, words)?),
            None => break,
        }
    }
    words.end().map(|()| Some(Expected { column: sign.column, facts }))
}

/// One word of what is expected.
fn fact(name: &str, words: &mut Words) -> Result<Fact, Mistake> {
    Ok(match name {
        "NUMBER" => Fact::Number(words.at_most(name, Refusal::ALL.len() as u64)?),
        "BYTES" => Fact::Bytes(words.bytes(name)?),
        "PLACE" => named(words, name, &["snapshot", "control", "zeros", "pool", "take"])?,
        "BUFFER" => named(words, name, &["snapshot", "pool"])?,
        "MARKS" => Fact::Word(printable(words.next(name)?.text)),
        "VALUE" | "REGISTER.." => Fact::Value(words.number(name.trim_end_matches('.'))?),
        _ if name.ends_with("POINTER") => Fact::Value(words.number(name)?),
        _ => Fact::Number(words.number(name.trim_end_matches('.'))?),
    })
}

fn named(words: &mut Words, what: &str, names: &[&str]) -> Result<Fact, Mistake> {
    words.choice(what, names).map(|name| Fact::word(names[name]))
}
