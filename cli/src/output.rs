//! All that is written. Every write is checked, and a file is written beside its place and renamed, so that it is there whole or stays as it was.

mod apart;
mod place;
mod stdout;
mod target;

use std::ffi::OsStr;
use std::io::{self, Write};
use std::os::unix::ffi::OsStrExt;
use std::panic::{catch_unwind, UnwindSafe};

pub use apart::keep_apart;
pub use place::Place;
pub use stdout::{meaning, refuse, say, say_fixed};
pub use target::{Target, Written};

/// What a new file, and a new program, may be used for, as far as the user's mask allows.
pub const FILE_MODE: u32 = 0o666;
pub const PROGRAM_MODE: u32 = 0o777;

/// What ends a command with status 2, in one line.
#[derive(Debug)]
pub struct Trouble(pub String);

/// One line on standard error. Where that can't be written there is nobody left to tell.
pub fn complain(line: &str) {
    tell(&format!("mirvashol: {line}\n"));
}

/// Text on standard error.
pub fn tell(text: &str) {
    let _ = io::stderr().write_all(text.as_bytes());
}

/// A name as it is printed: bytes that would break the line, or that can't be seen, are escaped.
pub fn shown(name: &OsStr) -> String {
    let mut text = String::new();
    for chunk in name.as_bytes().utf8_chunks() {
        for c in chunk.valid().chars() {
            match c {
                '\'' | '"' => text.push(c),
                _ => text.extend(c.escape_debug()),
            }
        }
        for byte in chunk.invalid() {
            text.push_str(&format!("\\x{byte:02x}"));
        }
    }
    text
}

/// Why the system would not, in its words.
pub fn reason(error: &io::Error) -> String {
    let words = error.to_string();
    match words.rfind(" (os error") {
        Some(end) => words[..end].to_string(),
        None => words,
    }
}

/// Text with every line indented.
pub fn indented(text: &str) -> String {
    text.lines().map(|line| format!("    {line}\n")).collect()
}

/// Words that explain an answer. They are no promise: where they fail, the answer stands all the same, and so do those that follow.
pub fn in_words(words: impl FnOnce() -> String + UnwindSafe) -> String {
    catch_unwind(words).unwrap_or_else(|_| {
        "(no words for this: a fault of mirvashol, which its makers would like to see)\n".to_string()
    })
}

#[cfg(test)]
mod tests {
    use super::*;
    use std::ffi::OsString;
    use std::os::unix::ffi::OsStringExt;

    #[test]
    fn words_that_fail_cost_no_answer() {
        assert_eq!(in_words(|| "due is: compare\n".to_string()), "due is: compare\n");
        assert!(in_words(|| panic!("no words")).starts_with("(no words for this"));
    }

    #[test]
    fn a_name_stays_one_line() {
        let name = |bytes: &[u8]| shown(&OsString::from_vec(bytes.to_vec()));
        assert_eq!(name(b"list 1.spl"), "list 1.spl");
        assert_eq!(name("Büch'er.spl".as_bytes()), "Büch'er.spl");
        assert_eq!(name(b"a\nb: accepted"), "a\\nb: accepted");
        assert_eq!(name(b"a\x1b[31m\\\xff\t"), "a\\u{1b}[31m\\\\\\xff\\t");
        assert_eq!(name("a\u{202e}b\u{2028}c".as_bytes()), "a\\u{202e}b\\u{2028}c");
    }
}
