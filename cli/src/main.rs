//! mirvashol: what people type. A plain driver over the proved static library: it reads files, asks, and writes what was answered. Nothing that is
//! proved is done a second time here.
//!
//! `commands` has the one table of commands; each command is a module. `asked` reads the words of a command line, `input` files, and `output` is all
//! that is ever written.

mod asked;
mod closed;
mod commands;
mod compile;
mod explain;
mod help;
mod input;
mod install;
mod judge;
mod output;
mod run;
mod show;
mod types;

use std::ffi::OsString;
use std::process::ExitCode;

use asked::Asked;
use commands::Command;
use output::{complain, shown, Trouble};

/// What a command comes to, as its exit status. Trouble is status 2, with one line on standard error.
#[derive(Clone, Copy, Debug, PartialEq, Eq, PartialOrd, Ord)]
pub enum Status {
    /// Accepted, finished, done.
    Fine = 0,
    /// Refused, or a run that ended early.
    Refused = 1,
    /// Answered, but for a file that could not be read; its line has been said.
    Unread = 2,
}

pub type Outcome = Result<Status, Trouble>;

fn main() -> ExitCode {
    let words: Vec<OsString> = std::env::args_os().skip(1).collect();
    match obey(&words) {
        Ok(status) => ExitCode::from(status as u8),
        Err(trouble) => {
            complain(&trouble.0);
            ExitCode::from(2)
        }
    }
}

/// The first word is the command; the rest is the command's.
fn obey(words: &[OsString]) -> Outcome {
    let Some((first, rest)) = words.split_first() else {
        return help::overview();
    };
    let command = match first.to_str() {
        Some("--help" | "-h") => return help::overview(),
        Some("--version") => return help::version(),
        name => name.and_then(commands::find),
    };
    let Some(command) = command else {
        let name = shown(first);
        return Err(Trouble(format!(
            "there is no command '{name}'; 'mirvashol help' says what there is"
        )));
    };
    perform(command, rest)
}

fn perform(command: &'static Command, words: &[OsString]) -> Outcome {
    match Asked::of(command, words)? {
        Some(asked) => (command.perform)(&asked),
        None => help::of_command(command),
    }
}
