//! A program in C over mirvashol.h and libmirvashol.a judges the incident's two lists; header, binding and library name the same functions.

use std::collections::BTreeSet;
use std::fs;

use crate::tests::Tests;

pub fn all(t: &mut Tests) {
    let (header, archive) = (t.top.join("bindings/c"), t.top.join("target/native/libmirvashol.a"));
    judged(
        t,
        header.to_str().expect("a plain path"),
        archive.to_str().expect("a plain path"),
    );
    // The header is C++ as well.
    let mut command = t.command("c++");
    command
        .args(["-Wall", "-Wextra", "-Werror", "-fsyntax-only", "-x", "c++"])
        .arg(header.join("mirvashol.h"));
    match command.output() {
        Ok(output) => t.check(
            "the header in C++",
            output.status.success(),
            &String::from_utf8_lossy(&output.stderr),
        ),
        Err(_) => t.skipped("the header in C++, as there is no program 'c++'"),
    }
    same_names(t);
}

/// Compiles tests/c/judge.c against a header and an archive, and runs it.
pub fn judged(t: &mut Tests, include: &str, archive: &str) {
    let source = t.top.join("tests/c/judge.c");
    let mut command = t.command("cc");
    command.args([
        "-std=c99",
        "-pedantic",
        "-Wall",
        "-Wextra",
        "-Werror",
        "-O2",
        "-I",
        include,
    ]);
    command.arg(source).args([archive, "-o", "judge-in-c"]);
    t.gives(0, b"", &mut command);
    let files = ["asking.spt", "asking.spl", "asking-firm.spl"].map(|name| t.example(&format!("incident/{name}")));
    let mut command = t.command(t.work.join("judge-in-c"));
    t.gives(0, b"accepted\nrefused 12 1 6\n", command.args(files));
}

/// The functions that a text names.
fn functions(text: &str) -> BTreeSet<String> {
    let word = |at: usize| {
        text[at..]
            .split(|c: char| !c.is_ascii_lowercase() && c != '_')
            .next()
            .unwrap_or_default()
    };
    let called = |name: &&str| text.contains(&format!("{name}("));
    text.match_indices("mirvashol_")
        .map(|(at, _)| word(at))
        .filter(called)
        .map(String::from)
        .collect()
}

fn same_names(t: &mut Tests) {
    let read = |name: &str| fs::read_to_string(t.top.join(name)).expect("a file");
    let exported = functions(&read("crates/mirvashol/src/lib.rt"));
    let (header, binding) = (
        functions(&read("bindings/c/mirvashol.h")),
        functions(&read("bindings/rust/src/raw.rs")),
    );
    t.check(
        "there are exported functions",
        exported.len() >= 8,
        &format!("{exported:?}"),
    );
    t.check(
        "the header declares what is exported",
        header == exported,
        &format!("{header:?}\n{exported:?}"),
    );
    t.check(
        "the binding declares what is exported",
        binding == exported,
        &format!("{binding:?}\n{exported:?}"),
    );
    let mut command = t.command("nm");
    command.arg("-g").arg(t.top.join("target/native/libmirvashol.a"));
    match command.output() {
        Ok(output) => {
            let symbols = String::from_utf8_lossy(&output.stdout).into_owned();
            let there = exported.iter().all(|name| symbols.contains(&format!(" T {name}\n")));
            t.check("the archive has them", there, &symbols);
        }
        Err(_) => t.skipped("the archive's symbols, as there is no program 'nm'"),
    }
}
