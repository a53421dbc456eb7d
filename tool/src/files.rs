//! Files, read and written whole.

use crate::failure::Failure;
use crate::text::{count, name};
use std::fs::{File, FileType, Metadata};
use std::io::{self, Read, Write};
use std::os::unix::fs::FileTypeExt;
use std::path::Path;

/// What a file is read as, and the most bytes that it may have.
#[derive(Clone, Copy)]
pub struct Limit {
    pub what: &'static str,
    pub most: usize,
}

/// Reads a file whole. `limit` is what the library takes, so that a longer file is not read for nothing.
pub fn read(path: &Path, limit: Limit) -> Result<Vec<u8>, Failure> {
    let fail = |reason: String| Failure::bad(format!("{}: {reason}", seen(path)));
    // Asked before it is opened: to open a FIFO is to wait for somebody to write to it.
    let metadata = std::fs::metadata(path).map_err(|error| fail(error.to_string()))?;
    if let Some(kind) = not_a_file(metadata.file_type()) {
        return Err(fail(format!("this is {kind} and not a file")));
    }
    let length = known_length(&metadata, limit).map_err(fail)?;
    let mut bytes = Vec::new();
    bytes.try_reserve_exact(length + 1).map_err(|_| fail(format!("its {} do not fit into memory", count(length as u64, "byte"))))?;
    let mut file = File::open(path).map_err(|error| fail(error.to_string()))?;
    file.read_to_end(&mut bytes).map_err(|error| fail(error.to_string()))?;
    Ok(bytes)
}

/// A path as it may be printed; one without a character in quotes, so that it is seen.
fn seen(path: &Path) -> String {
    if path.as_os_str().is_empty() {
        return "''".to_string();
    }
    name(path)
}

/// Writes a file whole. Where that fails, a file that was there is as it was.
pub fn write(path: &Path, bytes: &[u8]) -> Result<(), Failure> {
    let written = match std::fs::metadata(path).map(|metadata| metadata.file_type()) {
        // To open a FIFO is to wait for somebody to read from it.
        Ok(kind) if kind.is_fifo() => Err(io::Error::other("this is a FIFO and not a file")),
        Ok(kind) if kind.is_file() => std::fs::canonicalize(path).and_then(|path| replace(&path, bytes)),
        Ok(_) => File::create(path).and_then(|mut device| device.write_all(bytes)),
        Err(_) => replace(path, bytes),
    };
    written.map_err(|error| Failure::bad(format!("{}: cannot be written: {error}", seen(path))))
}

/// Writes the bytes beside the file, and puts them in its place once all are written.
fn replace(path: &Path, bytes: &[u8]) -> io::Result<()> {
    let mut beside = path.as_os_str().to_owned();
    beside.push(format!(".{}", std::process::id()));
    let mut file = File::create_new(&beside)?;
    let kept = std::fs::metadata(path).map_or(Ok(()), |metadata| file.set_permissions(metadata.permissions()));
    let written = kept.and_then(|()| file.write_all(bytes)).and_then(|()| std::fs::rename(&beside, path));
    written.inspect_err(|_| drop(std::fs::remove_file(&beside)))
}

fn known_length(metadata: &Metadata, limit: Limit) -> Result<usize, String> {
    let length = metadata.len();
    match usize::try_from(length) {
        Ok(length) if length <= limit.most => Ok(length),
        _ => Err(format!("this has {}, and {} has at most {}", count(length, "byte"), limit.what, limit.most)),
    }
}

/// What is at a path that holds no bytes to be read whole.
fn not_a_file(kind: FileType) -> Option<&'static str> {
    if kind.is_file() {
        None
    } else if kind.is_dir() {
        Some("a folder")
    } else if kind.is_fifo() {
        Some("a FIFO")
    } else if kind.is_socket() {
        Some("a socket")
    } else {
        Some("a device")
    }
}
