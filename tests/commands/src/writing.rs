//! Safe writing: what can't be written whole is said and leaves things as they were, and no output is an input.

use std::fs;
use std::os::unix::fs::{symlink, MetadataExt, PermissionsExt};

use crate::tests::{Said, Tests};

pub fn all(t: &mut Tests) {
    fs::create_dir(t.work.join("out")).expect("a folder");
    to_a_file(t);
    untouched(t);
    one_file_twice(t);
    links(t);
    devices(t);
    nothing_left(t);
}

fn to_a_file(t: &mut Tests) {
    let list = marked::file("e1.spl");
    t.expect(0, "", &["compile", "e1.spt", "-o", "out/new.spl"]);
    t.check("compile -o writes the list", t.read("out/new.spl") == list, "");
    t.write("out/old.spl", b"old");
    let old = t.work.join("out/old.spl");
    fs::hard_link(&old, t.work.join("out/old.kept")).expect("a hard link");
    fs::set_permissions(&old, fs::Permissions::from_mode(0o640)).expect("a mode");
    t.expect(0, "", &["compile", "-o", "out/old.spl", "--", "e1.spt"]);
    let mode = fs::metadata(&old).expect("a file").mode() & 0o7777;
    t.check(
        "it replaces an old file, which keeps its mode",
        t.read("out/old.spl") == list && mode == 0o640,
        &format!("{mode:o}"),
    );
    // Another file was put in its place: whoever reads the old one has it whole.
    t.check(
        "the old file itself is not written",
        t.read("out/old.kept") == b"old",
        "",
    );
    let mut command = t.mirvashol(&["compile", "e1.spt", "-o", "-"]);
    t.gives(0, &list, &mut command);
    t.expect(0, "", &["types", "e1.spt", "-o", "out/types"]);
    t.check(
        "types -o",
        t.read("out/types").starts_with(b"0 name free Channel\n"),
        "",
    );
}

/// A refusal or an error leaves the file as it was.
fn untouched(t: &mut Tests) {
    t.write("out/good.spl", b"good");
    t.expect(1, "refused 1 0 0\n", &["compile", "e3.spt", "-o", "out/good.spl"]);
    t.expect(1, "refused 10 0 0\n", &["types", "e5.spt", "-o", "out/good.spl"]);
    let troubles: [(&[&str], &str); 7] = [
        (
            &["compile", "missing.spt", "-o", "out/good.spl"],
            "missing.spt: can't be read",
        ),
        (
            &["compile", "e1.spt", "-o", "out"],
            "out: can't be written: is a directory",
        ),
        (
            &["compile", "e1.spt", "-o", "out/new/"],
            "out/new/: can't be written: is a directory",
        ),
        (
            &["compile", "e1.spt", "-o", "no/where"],
            "no/where: can't be written: No such file or directory",
        ),
        (
            &["compile", "e1.spt", "-o", "e1.spl/x"],
            "e1.spl/x: can't be written: Not a directory",
        ),
        (
            &["compile", "e1.spt", "-o", ""],
            ": can't be written: No such file or directory",
        ),
        (
            &["run", "e1.spt", "e1.spl", "e1.spx", "out/good.spl", "no/where"],
            "no/where: can't be written",
        ),
    ];
    for (asked, words) in troubles {
        let mut command = t.mirvashol(asked);
        t.troubled(words, &mut command);
    }
    // Neither file of a run is put in its place where the answer can't be said.
    let mut command = t.shell("\"$1\" run e1.spt e1.spl e1.spx out/good.spl out/log >/dev/full");
    t.troubled(
        "standard output can't be written: No space left on device",
        &mut command,
    );
    let right = t.read("out/good.spl") == b"good" && !t.work.join("out/log").exists();
    t.check("refusals and errors leave the files as they were", right, "");
}

/// Outputs that are inputs, or each other: refused before anything is read, by device and inode.
fn one_file_twice(t: &mut Tests) {
    for name in ["e1.spt", "e1.spl", "e1.spx"] {
        fs::copy(t.work.join(name), t.work.join("out").join(name)).expect("a copy");
    }
    fs::hard_link(t.work.join("out/e1.spl"), t.work.join("out/hard")).expect("a hard link");
    symlink("e1.spt", t.work.join("out/soft")).expect("a link");
    symlink("nothing", t.work.join("out/dangling")).expect("a link");
    let lines = [
        "run out/e1.spt out/e1.spl out/e1.spx out/e1.spt out/e1.spl",
        "run out/e1.spt out/e1.spl out/e1.spx out/values out/e1.spx",
        "run out/e1.spt out/e1.spl out/e1.spx out/hard out/log",
        "run out/e1.spt out/e1.spl out/e1.spx out/soft out/log",
        "run out/soft out/e1.spl out/e1.spx out/e1.spt out/log",
        "run out/e1.spt out/e1.spl out/e1.spx out/same out/same",
        "run out/e1.spt out/e1.spl out/e1.spx out/same ./out/../out/same",
        "run out/e1.spt out/e1.spl out/e1.spx out/dangling out/nothing",
        "run out/e1.spt out/e1.spl out/e1.spx out/new.spl out/new.spl",
        "run missing out/e1.spl out/e1.spx out/same out/same",
        "compile out/e1.spt -o out/e1.spt",
        "compile out/e1.spt -o out/soft",
        "types out/soft -o out/e1.spt",
    ];
    for line in lines {
        let mut command = t.mirvashol(&line.split(' ').collect::<Vec<&str>>());
        t.troubled("; nothing was read or written", &mut command);
    }
    let shells = [
        "\"$1\" compile - -o out/e1.spt <out/e1.spt",
        "\"$1\" compile -o out/e1.spt <out/soft",
        "\"$1\" compile out/e1.spt >>out/e1.spt",
        "\"$1\" judge out/e1.spt out/e1.spl >>out/hard",
        "\"$1\" show out/e1.spl --table out/e1.spt >>out/e1.spt",
        "\"$1\" run out/e1.spt out/e1.spl out/e1.spx out/answer out/log >out/answer",
    ];
    for line in shells {
        let mut command = t.shell(line);
        t.troubled("; nothing was read or written", &mut command);
    }
    let kept = ["e1.spt", "e1.spl", "e1.spx"]
        .iter()
        .all(|name| t.read(&format!("out/{name}")) == marked::file(name));
    t.check("table, list and trace are what they were", kept, "");
}

/// A link is written through, and stays a link.
fn links(t: &mut Tests) {
    t.write("out/real", b"");
    symlink("real", t.work.join("out/one")).expect("a link");
    symlink(t.work.join("out/one"), t.work.join("out/two")).expect("a link");
    symlink("to-come", t.work.join("out/three")).expect("a link");
    for (link, file) in [("out/two", "out/real"), ("out/three", "out/to-come")] {
        t.expect(0, "", &["compile", "e1.spt", "-o", link]);
        let still = fs::symlink_metadata(t.work.join(link)).is_ok_and(|data| data.is_symlink());
        t.check(
            &format!("{link} is written through"),
            still && t.read(file) == marked::file("e1.spl"),
            "",
        );
    }
    symlink("round", t.work.join("out/round")).expect("a link");
    let mut command = t.mirvashol(&["compile", "e1.spt", "-o", "out/round"]);
    t.troubled(
        "out/round: can't be written: too many levels of symbolic links",
        &mut command,
    );
}

/// Devices and pipes take the bytes as they are, and stay what they are.
fn devices(t: &mut Tests) {
    t.expect(0, "", &["compile", "e1.spt", "-o", "/dev/null"]);
    let said = Said::of(&mut t.mirvashol(&["run", "e1.spt", "e1.spl", "e1.spx", "/dev/null", "/dev/null"]));
    t.check(
        "a run's files to /dev/null",
        said.status == 0 && said.text().starts_with("ending 0"),
        &said.seen(),
    );
    let mut command = t.mirvashol(&["compile", "e1.spt", "-o", "/dev/full"]);
    t.troubled("/dev/full: can't be written: No space left on device", &mut command);
    let said = Said::of(&mut t.mirvashol(&["run", "e1.spt", "e1.spl", "e1.spx", "out/values", "/dev/full"]));
    t.check(
        "a run's log to a full device",
        said.status == 2 && said.complains("/dev/full: can't be written"),
        &said.seen(),
    );
    let list = marked::file("e1.spl");
    let mut command = t.shell("mkfifo out/pipe && { cat out/pipe & } && \"$1\" compile e1.spt -o out/pipe && wait");
    t.gives(0, &list, &mut command);
    let device = fs::metadata("/dev/null").is_ok_and(|data| !data.is_file());
    t.check("/dev/null is still a device", device, "");
}

/// No file that was written beside another is left.
fn nothing_left(t: &mut Tests) {
    let names = fs::read_dir(t.work.join("out")).expect("a folder");
    let left: Vec<_> = names
        .filter_map(|entry| entry.ok()?.file_name().into_string().ok())
        .collect();
    let left: Vec<_> = left.iter().filter(|name| name.starts_with('.')).collect();
    t.check("nothing is left beside", left.is_empty(), &format!("{left:?}"));
}
