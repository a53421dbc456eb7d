//! A case: the files that are there, the words that the tool is given, and the files that it leaves.

use crate::common::folder::{Content, Folder};
use crate::common::tool;
use std::ffi::{OsStr, OsString};
use std::os::unix::ffi::OsStrExt;

/// A case, with the name of its stored output.
pub struct Case {
    pub name: String,
    files: Vec<(OsString, Content)>,
    /// The words of each run of the tool, one run after the other in the same folder.
    runs: Vec<Vec<OsString>>,
    /// What has to be in files afterwards; nothing where none may be there.
    left: Vec<(&'static str, Option<Vec<u8>>)>,
}

impl Case {
    /// The tool with these words, between which there are spaces.
    pub fn new(name: impl Into<String>, words: &str) -> Case {
        Case::raw(name, &words.split_whitespace().map(str::as_bytes).collect::<Vec<_>>())
    }

    /// The tool with these words, which may hold any byte.
    pub fn raw(name: impl Into<String>, words: &[&[u8]]) -> Case {
        let words = words.iter().map(|word| OsStr::from_bytes(word).to_os_string()).collect();
        Case { name: name.into(), files: Vec::new(), runs: vec![words], left: Vec::new() }
    }

    /// A script over a snapshot.
    pub fn script(name: impl Into<String>, snapshot: Vec<u8>, script: impl AsRef<[u8]>) -> Case {
        Case::new(name, "run snapshot script").with("snapshot", snapshot).with("script", script.as_ref())
    }

    /// The same, with this at a path.
    pub fn with(mut self, path: impl AsRef<[u8]>, content: impl Into<Content>) -> Case {
        self.files.push((OsStr::from_bytes(path.as_ref()).to_os_string(), content.into()));
        self
    }

    /// The same, and then the tool with these words.
    pub fn then(mut self, words: &str) -> Case {
        self.runs.push(words.split_whitespace().map(OsString::from).collect());
        self
    }

    /// The same, and a file has to hold these bytes afterwards.
    pub fn leaves(mut self, path: &'static str, bytes: Vec<u8>) -> Case {
        self.left.push((path, Some(bytes)));
        self
    }

    /// The same, and no file may be at this path afterwards.
    pub fn leaves_no(mut self, path: &'static str) -> Case {
        self.left.push((path, None));
        self
    }

    /// What came back from every run, and what is wrong besides.
    pub fn carry_out(&self) -> (String, Vec<String>) {
        let folder = Folder::new(&self.name);
        self.files.iter().for_each(|(path, content)| folder.put(path, content));
        let came: Vec<tool::Came> = self.runs.iter().map(|words| tool::run(folder.path(), words)).collect();
        let unfit = came.iter().filter_map(|came| came.unfit().map(String::from));
        let left = self.left.iter().filter_map(|(path, bytes)| difference(path, bytes.as_deref(), folder.bytes(path).as_deref()));
        let wrong = unfit.chain(left).collect();
        (came.iter().map(tool::Came::text).collect(), wrong)
    }
}

/// How a file differs from what it has to hold.
fn difference(path: &str, wanted: Option<&[u8]>, found: Option<&[u8]>) -> Option<String> {
    match (wanted, found) {
        _ if wanted == found => None,
        (_, None) => Some(format!("{path} is not there")),
        (None, _) => Some(format!("{path} is there")),
        (Some(wanted), Some(found)) => {
            let first = wanted.iter().zip(found).position(|(wanted, found)| wanted != found).unwrap_or(wanted.len().min(found.len()));
            let (lengths, byte) = ((wanted.len(), found.len()), (wanted.get(first), found.get(first)));
            Some(format!(
                "{path} is to have {} bytes and has {}; byte {first} is to be {:?} and is {:?}",
                lengths.0, lengths.1, byte.0, byte.1
            ))
        }
    }
}
