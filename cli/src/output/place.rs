//! Where a command's one output goes: standard output, or the file that `-o` names.

use std::ffi::OsStr;

use super::{say, Target, Trouble, FILE_MODE};
use crate::{Outcome, Status};

pub enum Place {
    Standard,
    File(Target),
}

impl Place {
    /// The place of `-o FILE`, or of none; `-` is standard output.
    pub fn of(name: Option<&OsStr>) -> Result<Place, Trouble> {
        match name {
            Some(name) if name != "-" => Ok(Place::File(Target::of(name)?)),
            _ => Ok(Place::Standard),
        }
    }

    /// The file, where there is one.
    pub fn targets(&self) -> Vec<&Target> {
        match self {
            Place::Standard => Vec::new(),
            Place::File(target) => vec![target],
        }
    }

    /// Writes all of the output; then the command has this status.
    pub fn put(self, bytes: &[u8], status: Status) -> Outcome {
        match self {
            Place::Standard => say(bytes)?,
            Place::File(target) => target.write(bytes, FILE_MODE)?.put()?,
        }
        Ok(status)
    }
}
