//! What is read: files and standard input, no more of them than an answer can depend on.

use std::ffi::{OsStr, OsString};
use std::fs::File;
use std::io::{self, Read};
use std::os::fd::AsFd;
use std::sync::atomic::Ordering;

use crate::closed;
use crate::output::{reason, shown, Trouble};

/// Where bytes come from.
pub enum Source {
    Standard,
    File(OsString),
}

impl Source {
    /// The source of a name: `-`, and no name at all, are standard input.
    pub fn of(name: Option<&OsStr>) -> Source {
        match name {
            Some(name) if name != "-" => Source::File(name.to_os_string()),
            _ => Source::Standard,
        }
    }

    /// The sources of a command, in order. Standard input can be read once.
    pub fn all<'a>(names: impl IntoIterator<Item = &'a OsStr>) -> Result<Vec<Source>, Trouble> {
        let sources: Vec<Source> = names.into_iter().map(|name| Source::of(Some(name))).collect();
        let standard = sources.iter().filter(|source| matches!(source, Source::Standard));
        if standard.count() > 1 {
            return Err(Trouble("standard input can be one of the files only".to_string()));
        }
        Ok(sources)
    }

    /// Its name, in one line.
    pub fn name(&self) -> String {
        match self {
            Source::Standard => "-".to_string(),
            Source::File(name) => shown(name),
        }
    }

    pub fn open(&self) -> io::Result<File> {
        match self {
            Source::Standard if closed::INPUT.load(Ordering::Relaxed) => Err(io::Error::other("it is closed")),
            Source::Standard => Ok(File::from(io::stdin().as_fd().try_clone_to_owned()?)),
            Source::File(name) => File::open(name),
        }
    }

    /// All bytes, but of a file longer than the longest valid one that much and one byte more: it gets the same answer (DECISIONS 39).
    pub fn read(&self, longest: usize) -> Result<Vec<u8>, Unread> {
        let mut bytes = Vec::new();
        let read = self
            .open()
            .and_then(|file| file.take(longest as u64 + 1).read_to_end(&mut bytes));
        match read {
            Ok(_) => Ok(bytes),
            Err(error) => Err(Unread(format!("{}: can't be read: {}", self.name(), reason(&error)))),
        }
    }

    /// A role table.
    pub fn read_table(&self) -> Result<Vec<u8>, Unread> {
        self.read(mirvashol::LONGEST_TABLE)
    }

    pub fn read_list(&self) -> Result<Vec<u8>, Unread> {
        self.read(mirvashol::LONGEST_LIST)
    }

    pub fn read_trace(&self) -> Result<Vec<u8>, Unread> {
        self.read(mirvashol::LONGEST_TRACE)
    }
}

/// The line of a source that can't be read: `NAME: can't be read: REASON`.
pub struct Unread(pub String);

impl From<Unread> for Trouble {
    fn from(unread: Unread) -> Trouble {
        Trouble(unread.0)
    }
}
