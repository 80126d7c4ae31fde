//! Standard output, and what is said on standard error beside it.

use std::fs::File;
use std::io::{self, IsTerminal, Write};
use std::os::fd::AsFd;
use std::os::unix::fs::MetadataExt;
use std::sync::atomic::Ordering;

use mirvashol::Refusal;

use crate::closed;

use super::{in_words, indented, reason, tell, Trouble};

/// Bytes on standard output, all of them or trouble.
pub fn say(bytes: &[u8]) -> Result<(), Trouble> {
    let trouble = |words: &str| Err(Trouble(format!("standard output can't be written: {words}")));
    if closed::OUTPUT.load(Ordering::Relaxed) {
        return trouble("it is closed");
    }
    let mut out = io::stdout().lock();
    match out.write_all(bytes).and_then(|()| out.flush()) {
        Ok(()) => Ok(()),
        Err(error) => trouble(&reason(&error)),
    }
}

/// A fixed line that somebody should see though standard output goes elsewhere: it goes to standard error too where standard output is not a
/// terminal, unless both go the same way.
pub fn say_fixed(line: &str) -> Result<(), Trouble> {
    let line = format!("{line}\n");
    say(line.as_bytes())?;
    if !io::stdout().is_terminal() && !one_way() {
        tell(&line);
    }
    Ok(())
}

/// Do standard output and standard error go the same way?
fn one_way() -> bool {
    let of = |stream: &dyn AsFd| {
        let file = File::from(stream.as_fd().try_clone_to_owned().ok()?);
        let data = file.metadata().ok()?;
        Some((data.dev(), data.ino()))
    };
    let (out, err) = (io::stdout(), io::stderr());
    of(&out).is_some_and(|there| of(&err) == Some(there))
}

/// What a refusal means here, in words.
pub fn meaning(refusal: &Refusal, table: &[u8], list: Option<&[u8]>, trace: Option<&[u8]>) -> String {
    in_words(|| words::refusal(refusal.number, refusal.file, refusal.place, table, list, trace))
}

/// A refusal: its line, and on standard error, unless it is to be quiet, what it means.
pub fn refuse(
    refusal: &Refusal,
    table: &[u8],
    list: Option<&[u8]>,
    trace: Option<&[u8]>,
    quiet: bool,
) -> Result<(), Trouble> {
    say_fixed(&refusal.to_string())?;
    if !quiet {
        tell(&indented(&meaning(refusal, table, list, trace)));
    }
    Ok(())
}
