//! When the launcher builds: never where a built program is there, and with a word for each crate where none is. Tried in a small repository that
//! has the launcher, its scripts, and stand-ins for `rt` and `cargo`.

use std::fs;
use std::os::unix::fs::{symlink, PermissionsExt};
use std::path::{Path, PathBuf};

use crate::tests::{Said, Tests, PLAIN_PATH};

/// A stand-in: `rt lib` that proves two crates at once.
const RT: &str = "#!/bin/sh
case $1 in
lib)
    for crate in base mirvashol; do
        echo \"crate $crate: modules loaded=0 checked=3\"
        echo noise
        echo 'logic=proved functions=1'
    done
    [ ! -e ../../fail ] && mkdir -p out && echo archive >out/libmirvashol.a
    ;;
esac
";

/// A stand-in: `cargo` that puts the real program where the launcher looks for it.
const CARGO: &str = "#!/bin/sh
mkdir -p target/rust/release && cp \"$REAL\" target/rust/release/mirvashol
";

pub fn all(t: &mut Tests) {
    let small = t.work.join("small");
    let program = small.join("target/rust/release/mirvashol");
    make(t, &small);
    let list = marked::file("e1.spl");
    let real = t.top.join("target/rust/release/mirvashol");
    let tools = format!("{}:{PLAIN_PATH}", small.join("stand-ins").display());
    let ask = |words: &[&str], path: &str| {
        let mut command = t.command(small.join("mirvashol"));
        command.args(words).env("PATH", path).env("REAL", &real);
        Said::of(&mut command)
    };

    // Nothing is built: help is there at once; a command needs the toolchain, and says so.
    let help = ask(&["help"], PLAIN_PATH);
    let version = ask(&["--version"], PLAIN_PATH);
    let without = ask(&["judge", "e1.spt", "e1.spl"], PLAIN_PATH);
    fs::write(small.join("fail"), "").expect("a file");
    let failing = ask(&["judge", "e1.spt", "e1.spl"], &tools);
    fs::remove_file(small.join("fail")).expect("a file");
    let none = !program.exists();
    let building = ask(&["compile", "e1.spt"], &tools);
    let built = program.exists();
    // It is built, and the source is newer: one line, and the answer.
    let quiet = ask(&["compile", "e1.spt"], PLAIN_PATH);
    let later = Said::of(&mut t.shell("sleep 0.02; echo x >small/crates/base/lib.rt"));
    let newer = ask(&["compile", "e1.spt"], PLAIN_PATH);
    let read_only = Said::of(
        t.shell(
            "chmod -R a-w small; small/mirvashol judge -q e1.spt e11.spl; status=$?; chmod -R u+w small; exit $status",
        )
        .env("PATH", PLAIN_PATH),
    );
    let anew = ask(&["build"], &tools);
    let after = ask(&["compile", "e1.spt"], PLAIN_PATH);

    let overview = fs::read_to_string(t.top.join("cli/help.txt")).expect("cli/help.txt");
    t.check(
        "help in a fresh clone",
        help.status == 0 && help.text() == overview,
        &help.seen(),
    );
    t.check(
        "the version in a fresh clone",
        version.status == 0 && version.text().starts_with("mirvashol "),
        &version.seen(),
    );
    let right = without.status == 2
        && without.out.is_empty()
        && without.complains("rt is not on the PATH, and building needs it");
    t.check("nothing built and no toolchain", right, &without.seen());
    let right = failing.status == 2 && failing.out.is_empty() && failing.err.contains("mirvashol: not proved") && none;
    t.check("a proof that fails: no program, no answer", right, &failing.seen());
    let said = "mirvashol: proved base\nmirvashol: proved mirvashol\n";
    let right = building.status == 0
        && building.out == list
        && building.err.contains(said)
        && !building.err.contains("noise")
        && built;
    t.check("what is missing is built, crate by crate", right, &building.seen());
    t.check(
        "built, it says nothing",
        quiet.status == 0 && quiet.out == list && quiet.err.is_empty(),
        &quiet.seen(),
    );
    t.check("a file of the source is touched", later.status == 0, &later.seen());
    let right = newer.status == 0
        && newer.out == list
        && newer.complains("the source is newer")
        && newer.err.contains("./mirvashol build");
    t.check("the source is newer: one line, and the answer", right, &newer.seen());
    let right = read_only.status == 1 && read_only.out == b"e11.spl: refused 12 1 1\n";
    t.check("in a folder that can't be written", right, &read_only.seen());
    t.check(
        "./mirvashol build",
        anew.status == 0 && anew.err.contains(said),
        &anew.seen(),
    );
    t.check(
        "built anew, it says nothing",
        after.status == 0 && after.err.is_empty(),
        &after.seen(),
    );
}

/// The launcher and its scripts as they are, and the least of a source.
fn make(t: &Tests, small: &Path) {
    let folders = [
        "tools",
        "stand-ins",
        "crates/base",
        "crates/mirvashol",
        "bindings",
        "cli",
        "docs",
    ];
    for folder in folders {
        fs::create_dir_all(small.join(folder)).expect("a folder");
    }
    let scripts = fs::read_dir(t.top.join("tools")).expect("tools/");
    let scripts = scripts.map(|entry| PathBuf::from("tools").join(entry.expect("a script").file_name()));
    let files = [
        "mirvashol",
        "VERSION",
        "cli/help.txt",
        "docs/NUMBERS.txt",
        "crates.txt",
        "Cargo.toml",
        "Cargo.lock",
    ];
    for file in scripts.chain(files.into_iter().map(PathBuf::from)) {
        fs::copy(t.top.join(&file), small.join(&file)).expect("a file");
    }
    for (name, text) in [("rt", RT), ("cargo", CARGO)] {
        let path = small.join("stand-ins").join(name);
        fs::write(&path, text).expect("a stand-in");
        fs::set_permissions(&path, fs::Permissions::from_mode(0o755)).expect("a mode");
    }
    symlink("cargo", small.join("stand-ins/rustc")).expect("a link");
}
