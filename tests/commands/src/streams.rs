//! Standard input and output of every kind: pipes, full devices, closed ones, readers that go away.

use std::fs::File;

use crate::tests::{Said, Tests};

/// Every command that says something, on one line.
const SAYING: &[&str] = &[
    "compile e1.spt",
    "compile e3.spt",
    "types e1.spt",
    "types e5.spt",
    "judge e1.spt e1.spl",
    "judge e1.spt e11.spl missing",
    "run e1.spt e1.spl e1.spx",
    "run e1.spt e11.spl e1.spx",
    "show e1.spt",
    "show --values e1.values",
    "explain 12",
    "explain ending 2",
    "help",
    "help judge",
    "judge --help",
    "--version",
];

pub fn all(t: &mut Tests) {
    for line in SAYING {
        let words: Vec<&str> = line.split(' ').collect();
        can_not_be_said(t, line, "/dev/full", &mut t.shell(&format!("\"$1\" {line} >/dev/full")));
        can_not_be_said(t, line, "closed", &mut t.shell(&format!("\"$1\" {line} >&-")));
        let (reader, writer) = std::io::pipe().expect("a pipe");
        drop(reader);
        can_not_be_said(t, line, "nobody reads", t.mirvashol(&words).stdout(writer));
        // Standard error that can't be written changes nothing.
        let said = Said::of(&mut t.mirvashol(&words));
        for other in ["2>/dev/full", "2>&-"] {
            t.gives(said.status, &said.out, &mut t.shell(&format!("\"$1\" {line} {other}")));
        }
    }
    read_from_pipes(t);
    on_a_terminal(t);
}

/// Standard output that can't be written: status 2, one line that says so, after whatever refusal was said there, and no panic.
fn can_not_be_said(t: &mut Tests, line: &str, how: &str, command: &mut std::process::Command) {
    let said = Said::of(command);
    let right = said.status == 2 && said.complains("standard output can't be written");
    t.check(&format!("{line}, standard output {how}"), right, &said.seen());
}

fn read_from_pipes(t: &mut Tests) {
    let list = marked::file("e1.spl");
    t.gives(
        0,
        &list,
        t.mirvashol(&["compile"])
            .stdin(File::open(t.work.join("e1.spt")).expect("a table")),
    );
    t.gives(0, &list, &mut t.shell("cat e1.spt | \"$1\" compile"));
    t.gives(0, &list, &mut t.shell("cat e1.spt | \"$1\" compile -"));
    t.gives(
        0,
        &list,
        &mut t.shell("{ head -c 5 e1.spt; sleep 0.1; tail -c +6 e1.spt; } | \"$1\" compile"),
    );
    t.gives(0, b"-: accepted\n", &mut t.shell("cat e1.spl | \"$1\" judge e1.spt -"));
    t.gives(
        0,
        b"e1.spl: accepted\n",
        &mut t.shell("cat e1.spt | \"$1\" judge - e1.spl"),
    );
    t.gives(
        0,
        b"/dev/stdin: accepted\n",
        &mut t.shell("\"$1\" compile e1.spt | \"$1\" judge e1.spt /dev/stdin"),
    );
    t.gives(
        0,
        b"fifo: accepted\n",
        &mut t.shell("mkfifo fifo && { cat e1.spl >fifo & } && \"$1\" judge e1.spt fifo"),
    );
    let said = Said::of(&mut t.shell("cat e1.spx | \"$1\" run e1.spt e1.spl - piped-values piped-log"));
    let right = said.status == 0
        && t.read("piped-values") == marked::file("e1.values")
        && t.read("piped-log") == marked::file("e1.log");
    t.check("a trace from a pipe", right, &said.seen());
    let said = Said::of(&mut t.shell("cat e1.spl | \"$1\" show - --table e1.spt"));
    t.check(
        "show from a pipe",
        said.status == 0 && said.text().lines().count() > 3,
        &said.seen(),
    );
    t.troubled("-: can't be read: Is a directory", &mut t.shell("\"$1\" compile <."));
    t.troubled("-: can't be read: it is closed", &mut t.shell("\"$1\" compile <&-"));
}

/// On a terminal a refusal is said once.
fn on_a_terminal(t: &mut Tests) {
    let launcher = t.top.join("mirvashol");
    let line = format!("'{}' compile -q e3.spt", launcher.display());
    let mut command = t.command("script");
    command.args(["-qec", &line, "/dev/null"]);
    match command.output() {
        Ok(output) => {
            let text = String::from_utf8_lossy(&output.stdout).replace('\r', "");
            t.check("a refusal on a terminal is said once", text == "refused 1 0 0\n", &text);
        }
        Err(_) => t.skipped("a terminal, as there is no program 'script'"),
    }
}
