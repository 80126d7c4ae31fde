//! `install`: what it writes works with no toolchain and no repository.

use std::fs;
use std::os::unix::fs::{symlink, PermissionsExt};
use std::path::Path;

use crate::c_programs;
use crate::tests::{Said, Tests, PLAIN_PATH};

const FILES: [&str; 5] = [
    "bin/mirvashol",
    "lib/libmirvashol.a",
    "include/mirvashol.h",
    "share/man/man1/mirvashol.1",
    "share/bash-completion/completions/mirvashol",
];

pub fn all(t: &mut Tests) {
    let prefix = t.work.join("pre fix");
    let lines: String = FILES.iter().map(|file| format!("pre fix/{file}\n")).collect();
    t.gives(
        0,
        lines.as_bytes(),
        t.mirvashol(&["install", "pre fix"]).env("PATH", PLAIN_PATH),
    );
    whole(t, &prefix);
    // Once more, over what is there; and from what is installed, below the home folder.
    t.expect(0, &lines, &["install", "pre fix"]);
    let home = t.work.join("home");
    fs::create_dir(&home).expect("a folder");
    let said = Said::of(
        t.command(prefix.join("bin/mirvashol"))
            .arg("install")
            .env_clear()
            .env("HOME", &home),
    );
    t.check(
        "the installed program installs itself below ~/.local",
        said.status == 0,
        &said.seen(),
    );
    whole(t, &home.join(".local"));
    // Over itself, while it runs; a lost mode is mended.
    let program = prefix.join("bin/mirvashol");
    let said = Said::of(t.command(&program).args(["install", "pre fix"]));
    t.check(
        "the installed program installs itself anew",
        said.status == 0 && said.text() == lines,
        &said.seen(),
    );
    fs::set_permissions(&program, fs::Permissions::from_mode(0o644)).expect("a mode");
    t.expect(0, &lines, &["install", "pre fix"]);
    let mode = fs::metadata(&program).map_or(0, |data| data.permissions().mode());
    t.check("the program may be run", mode & 0o111 == 0o111, &format!("{mode:o}"));
    // A link to a repository's launcher is replaced; the launcher stays.
    fs::copy(t.top.join("mirvashol"), t.work.join("a launcher")).expect("a copy");
    fs::create_dir_all(t.work.join("linked/bin")).expect("a folder");
    symlink("../../a launcher", t.work.join("linked/bin/mirvashol")).expect("a link");
    let said = Said::of(&mut t.mirvashol(&["install", "linked"]));
    let kept = t.read("a launcher") == fs::read(t.top.join("mirvashol")).expect("the launcher");
    let program = fs::symlink_metadata(t.work.join("linked/bin/mirvashol")).is_ok_and(|data| data.is_file());
    t.check(
        "a link to a launcher is replaced",
        said.status == 0 && kept && program,
        &said.seen(),
    );
    let mut command = t.shell("\"$1\" install linked >/dev/full");
    t.troubled("standard output can't be written", &mut command);
    t.troubled(
        "HOME is not set",
        t.command(prefix.join("bin/mirvashol")).arg("install").env_clear(),
    );
    t.troubled(
        "build works in the repository",
        t.command(prefix.join("bin/mirvashol")).arg("build"),
    );
    // A full or unwritable place is said.
    t.troubled("can't be made", &mut t.mirvashol(&["install", "e1.spt"]));
}

/// Everything is there, and works in an empty environment.
fn whole(t: &mut Tests, prefix: &Path) {
    for file in FILES {
        let there = fs::metadata(prefix.join(file)).is_ok_and(|data| data.is_file() && data.len() > 0);
        t.check(&format!("{file} is installed"), there, "");
    }
    let incident = t.top.join("examples/incident");
    let files = ["asking.spt", "asking.spl", "asking-firm.spl"].map(|name| incident.join(name));
    let mut command = t.command(prefix.join("bin/mirvashol"));
    command
        .args(["judge", "-q"])
        .args(&files)
        .env_clear()
        .env("PATH", PLAIN_PATH);
    let verdicts = format!(
        "{}: accepted\n{}: refused 12 1 6\n",
        files[1].display(),
        files[2].display()
    );
    t.gives(1, verdicts.as_bytes(), &mut command);
    let said = Said::of(
        t.command(prefix.join("bin/mirvashol"))
            .args(["explain", "12"])
            .env_clear(),
    );
    t.check(
        "explain needs no file",
        said.status == 0 && said.text().starts_with("refusal 12:"),
        &said.seen(),
    );
    let same = |file: &str, from: &str| fs::read(prefix.join(file)).ok() == fs::read(t.top.join(from)).ok();
    let right = same("lib/libmirvashol.a", "target/native/libmirvashol.a")
        && same("include/mirvashol.h", "bindings/c/mirvashol.h");
    t.check("library and header are the repository's", right, "");
    let (include, archive) = (prefix.join("include"), prefix.join("lib/libmirvashol.a"));
    c_programs::judged(
        t,
        include.to_str().expect("a plain path"),
        archive.to_str().expect("a plain path"),
    );
    page_and_completion(t, prefix);
}

fn page_and_completion(t: &mut Tests, prefix: &Path) {
    // The unit tests of cli/ hold both texts to the table of commands.
    let mut command = t.command("man");
    command
        .args(["--warnings", "-l"])
        .arg(prefix.join("share/man/man1/mirvashol.1"))
        .env("LC_ALL", "C.UTF-8");
    match command.output() {
        Ok(output) => {
            let (page, warnings) = (
                String::from_utf8_lossy(&output.stdout),
                String::from_utf8_lossy(&output.stderr),
            );
            let right = output.status.success() && warnings.is_empty() && page.contains("mirvashol judge TABLE LIST");
            t.check(
                "the manual page is set without a warning",
                right,
                &format!("{page}\n{warnings}"),
            );
        }
        Err(_) => t.skipped("the manual page, as there is no program 'man'"),
    }
    let completion = prefix.join("share/bash-completion/completions/mirvashol");
    for (words, wanted) in [
        ("ju", "judge\n"),
        ("judge --h", "--help\n"),
        ("judge -q", "-q\n"),
        ("help ex", "explain\n"),
        ("judge as", "\n"),
    ] {
        let line = format!(
            ". '{}'; COMP_WORDS=(mirvashol {words}); COMP_CWORD=$((${{#COMP_WORDS[@]}} - 1)); _mirvashol; echo \"${{COMPREPLY[*]}}\"",
            completion.display()
        );
        let mut command = t.command("bash");
        command.args(["-c", &line]);
        match command.output() {
            Ok(output) => t.check(
                &format!("completion of '{words}'"),
                output.stdout == wanted.as_bytes(),
                &String::from_utf8_lossy(&output.stdout),
            ),
            Err(_) => t.skipped("the completion, as there is no bash"),
        }
    }
}
