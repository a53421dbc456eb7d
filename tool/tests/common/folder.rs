//! A folder of a test's own, and what lies in it before the tool is run.

use std::ffi::OsStr;
use std::fs::{self, File};
use std::io;
use std::os::fd::AsRawFd;
use std::os::unix::net::UnixListener;
use std::path::{Path, PathBuf};
use std::process::Command;
use std::sync::atomic::{AtomicUsize, Ordering};

/// What is at a path.
pub enum Content {
    Bytes(Vec<u8>),
    /// A file of so many zeros that takes no room on the disk.
    Zeros(u64),
    Folder,
    Fifo,
    Socket,
}

impl<T: AsRef<[u8]>> From<T> for Content {
    fn from(bytes: T) -> Content {
        Content::Bytes(bytes.as_ref().to_vec())
    }
}

/// A folder that is gone when the test ends, however it ends.
pub struct Folder(PathBuf);

impl Folder {
    /// A folder that no other test has, also none of another run at the same time.
    pub fn new(name: &str) -> Folder {
        static NUMBER: AtomicUsize = AtomicUsize::new(0);
        let unique = format!("{name}-{}-{}", std::process::id(), NUMBER.fetch_add(1, Ordering::Relaxed));
        let path = Path::new(env!("CARGO_TARGET_TMPDIR")).join(unique);
        fs::create_dir_all(&path).expect("a folder for the test can be made");
        Folder(path)
    }

    pub fn path(&self) -> &Path {
        &self.0
    }

    /// Puts something at a path in the folder.
    pub fn put(&self, name: impl AsRef<OsStr>, content: &Content) {
        let path = self.0.join(name.as_ref());
        let put = match content {
            Content::Bytes(bytes) => fs::write(&path, bytes),
            Content::Zeros(length) => File::create(&path).and_then(|file| file.set_len(*length)),
            Content::Folder => fs::create_dir(&path),
            Content::Socket => self.bind(name.as_ref()),
            Content::Fifo => Command::new("mkfifo").arg(&path).status().map(|status| assert!(status.success(), "mkfifo")),
        };
        put.unwrap_or_else(|error| panic!("{}: {error}", path.display()));
    }

    /// Makes a socket. Its path is to be short, and the folder's own may be long.
    fn bind(&self, name: &OsStr) -> io::Result<()> {
        let folder = File::open(&self.0)?;
        UnixListener::bind(Path::new("/proc/self/fd").join(folder.as_raw_fd().to_string()).join(name)).map(drop)
    }

    /// The bytes of a file in the folder, if it is there.
    pub fn bytes(&self, name: &str) -> Option<Vec<u8>> {
        fs::read(self.0.join(name)).ok()
    }
}

impl Drop for Folder {
    fn drop(&mut self) {
        let _ = fs::remove_dir_all(&self.0);
    }
}
