//! A file that is to be written.

use std::ffi::OsStr;
use std::fs::{self, File, Metadata, OpenOptions};
use std::io::{self, ErrorKind, Write};
use std::os::unix::fs::{FileTypeExt, MetadataExt, OpenOptionsExt, PermissionsExt};
use std::path::{Path, PathBuf};

use super::{reason, shown, Trouble};

/// Where a file is to be written.
pub struct Target {
    pub name: String,
    path: PathBuf,
    /// What is there already.
    there: Option<Metadata>,
}

impl Target {
    /// The place that a name means, behind any symbolic links: they stay. Nothing is written yet.
    pub fn of(name: &OsStr) -> Result<Target, Trouble> {
        Target::find(name, behind_links(Path::new(name)))
    }

    /// The place of the name itself: what is there, a symbolic link or a running program, will be replaced, and nothing of it is kept.
    pub fn itself(name: &OsStr) -> Result<Target, Trouble> {
        let target = Target::find(name, Ok(PathBuf::from(name)))?;
        Ok(Target { there: None, ..target })
    }

    fn find(name: &OsStr, path: io::Result<PathBuf>) -> Result<Target, Trouble> {
        let target = path.and_then(|path| {
            let there = match fs::symlink_metadata(&path) {
                Ok(data) if data.is_dir() => return Err(ErrorKind::IsADirectory.into()),
                Ok(data) => Some(data).filter(|data| !data.is_symlink()),
                Err(error) if error.kind() == ErrorKind::NotFound && path.file_name().is_some() => None,
                Err(error) => return Err(error),
            };
            let name = shown(name);
            let target = Target { name, path, there };
            fs::metadata(target.folder())?;
            Ok(target)
        });
        target.map_err(|error| Trouble(format!("{}: can't be written: {}", shown(name), reason(&error))))
    }

    /// The folder that holds it.
    pub fn folder(&self) -> &Path {
        match self.path.parent() {
            Some(folder) if folder != Path::new("") => folder,
            _ => Path::new("."),
        }
    }

    /// The name that it has, or will have, in its folder.
    pub fn in_folder(&self) -> &OsStr {
        self.path.file_name().unwrap_or_default()
    }

    pub fn there(&self) -> Option<&Metadata> {
        self.there.as_ref()
    }

    /// A device or a pipe takes bytes as they come, and is no file to be put in place.
    fn takes_bytes(&self) -> bool {
        self.there.as_ref().is_some_and(|data| !data.is_file())
    }

    pub fn is_device(&self) -> bool {
        self.there
            .as_ref()
            .is_some_and(|data| data.file_type().is_char_device())
    }

    fn trouble(&self, error: &io::Error) -> Trouble {
        Trouble(format!("{}: can't be written: {}", self.name, reason(error)))
    }

    /// Writes the bytes beside the place, all but the renaming. What may be run gets the mode of a program.
    pub fn write(self, bytes: &[u8], mode: u32) -> Result<Written, Trouble> {
        match self.write_beside(bytes, mode) {
            Ok(beside) => Ok(Written {
                bytes: if beside.is_none() { bytes.to_vec() } else { Vec::new() },
                beside,
                target: self,
            }),
            Err(error) => Err(self.trouble(&error)),
        }
    }

    fn write_beside(&self, bytes: &[u8], mode: u32) -> io::Result<Option<Beside>> {
        if self.takes_bytes() {
            return Ok(None);
        }
        if self.there.is_some() {
            // A file that must not be written is not replaced either.
            OpenOptions::new().write(true).open(&self.path)?;
        }
        let (beside, mut file) = Beside::new(self.folder(), mode)?;
        if let Some(data) = &self.there {
            file.set_permissions(fs::Permissions::from_mode(data.mode() & 0o777))?;
        }
        file.write_all(bytes)?;
        file.sync_all()?;
        Ok(Some(beside))
    }
}

/// A file whose bytes are written, but not yet in their place. Dropped, it leaves no trace.
pub struct Written {
    target: Target,
    beside: Option<Beside>,
    bytes: Vec<u8>,
}

impl Written {
    /// Puts it in its place.
    pub fn put(self) -> Result<(), Trouble> {
        let put = match &self.beside {
            Some(beside) => fs::rename(&beside.0, &self.target.path),
            None => OpenOptions::new()
                .write(true)
                .open(&self.target.path)
                .and_then(|mut file| file.write_all(&self.bytes)),
        };
        put.map_err(|error| self.target.trouble(&error))
    }
}

/// A file beside the place of another, gone when this is dropped unless it was renamed.
struct Beside(PathBuf);

impl Beside {
    fn new(folder: &Path, mode: u32) -> io::Result<(Beside, File)> {
        for i in 0.. {
            let path = folder.join(format!(".mirvashol-{}-{i}", std::process::id()));
            match OpenOptions::new().write(true).create_new(true).mode(mode).open(&path) {
                Err(error) if error.kind() == ErrorKind::AlreadyExists && i < 100 => {}
                opened => return Ok((Beside(path), opened?)),
            }
        }
        unreachable!("the loop ends with a file or an error")
    }
}

impl Drop for Beside {
    fn drop(&mut self) {
        let _ = fs::remove_file(&self.0);
    }
}

/// The place that symbolic links lead to, whether something is there or not.
fn behind_links(path: &Path) -> io::Result<PathBuf> {
    let mut path = path.to_path_buf();
    if path.as_os_str().as_encoded_bytes().ends_with(b"/") {
        return Err(ErrorKind::IsADirectory.into());
    }
    for _ in 0..40 {
        match fs::read_link(&path) {
            // A link's own text counts from the folder that holds the link.
            Ok(to) => path = path.parent().unwrap_or(Path::new("")).join(to),
            Err(_) => return Ok(path),
        }
    }
    Err(io::Error::other("too many levels of symbolic links"))
}
