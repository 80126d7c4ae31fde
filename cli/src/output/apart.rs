//! No output may be an input, or another output: seen before anything is read, by device and inode, not by name.

use std::ffi::OsString;
use std::fs::{self, File, Metadata};
use std::io;
use std::os::fd::AsFd;
use std::os::unix::fs::MetadataExt;

use super::{Target, Trouble};
use crate::input::Source;

/// What makes a file this one: it is there, or it will have this name in that folder.
#[derive(PartialEq, Eq)]
enum Identity {
    There(u64, u64),
    New(u64, u64, OsString),
}

impl Identity {
    fn there(data: &Metadata) -> Identity {
        Identity::There(data.dev(), data.ino())
    }

    fn of_source(source: &Source) -> Option<Identity> {
        match source {
            Source::Standard => of_stream(&io::stdin()),
            Source::File(name) => fs::metadata(name).ok().as_ref().map(Identity::there),
        }
    }

    /// None for a device: two outputs may both go to /dev/null.
    fn of_target(target: &Target) -> Option<Identity> {
        match target.there() {
            Some(_) if target.is_device() => None,
            Some(data) => Some(Identity::there(data)),
            None => {
                let folder = fs::metadata(target.folder()).ok()?;
                Some(Identity::New(
                    folder.dev(),
                    folder.ino(),
                    target.in_folder().to_os_string(),
                ))
            }
        }
    }
}

/// A stream of the program, where it is a file: terminals and pipes are no file that could be overwritten.
fn of_stream(stream: &impl AsFd) -> Option<Identity> {
    let file = File::from(stream.as_fd().try_clone_to_owned().ok()?);
    let data = file.metadata().ok().filter(Metadata::is_file)?;
    Some(Identity::there(&data))
}

/// Refuses outputs that are the same file as an input or as each other. Standard output is an output, too.
pub fn keep_apart(inputs: &[&Source], outputs: &[&Target]) -> Result<(), Trouble> {
    let mut taken: Vec<(String, Identity)> = Vec::new();
    for source in inputs {
        taken.extend(Identity::of_source(source).map(|identity| (source.name(), identity)));
    }
    let standard = of_stream(&io::stdout()).map(|identity| ("standard output".to_string(), identity));
    let named = outputs
        .iter()
        .filter_map(|target| Some((target.name.clone(), Identity::of_target(target)?)));
    for (name, identity) in standard.into_iter().chain(named) {
        if let Some((other, _)) = taken.iter().find(|(_, there)| *there == identity) {
            return Err(Trouble(format!(
                "{name}: can't be written: it is the same file as {other}; nothing was read or written"
            )));
        }
        taken.push((name, identity));
    }
    Ok(())
}
