//! The commands as people type them, through `./mirvashol`: document 01's marked examples, all of examples/, each wrong use, and unkind places: full
//! devices, closed streams, links, strange names, other users. The last line is `N passed, M failed`; the status is 1 where M is not 0.
//!
//! It needs the built program, and crates/compile/out/compile, which `rt ci` leaves there.

mod answers;
mod c_programs;
mod installed;
mod launcher;
mod marked_examples;
mod names;
mod places;
mod protocols;
mod streams;
mod tests;
mod writing;
mod wrong_use;

use std::process::ExitCode;

use tests::Tests;

fn main() -> ExitCode {
    let mut t = Tests::new();
    if !t.is_built() {
        return t.close();
    }
    marked_examples::all(&mut t);
    protocols::all(&mut t);
    answers::all(&mut t);
    wrong_use::all(&mut t);
    writing::all(&mut t);
    streams::all(&mut t);
    names::all(&mut t);
    places::all(&mut t);
    launcher::all(&mut t);
    c_programs::all(&mut t);
    installed::all(&mut t);
    t.close()
}
