//! Where the launcher is called from: other folders, symbolic links, any CDPATH, no toolchain, another user.

use std::fs;
use std::os::unix::fs::{symlink, MetadataExt, PermissionsExt};
use std::os::unix::process::CommandExt;
use std::process::Command;

use crate::tests::{Said, Tests, PLAIN_PATH};

/// The user and group that own nothing.
const NOBODY: u32 = 65534;

pub fn all(t: &mut Tests) {
    let list = marked::file("e1.spl");
    let table = t.work.join("e1.spt");

    // From the folder above, with a CDPATH as many shells have it.
    let (above, name) = (
        t.top.parent().expect("a folder above").to_path_buf(),
        t.top.file_name().expect("a name").to_os_string(),
    );
    for path in [".", "..", above.to_str().expect("a plain path"), "/tmp:/"] {
        let mut command = t.command(std::path::Path::new(&name).join("mirvashol"));
        command
            .current_dir(&above)
            .env("CDPATH", path)
            .args(["compile".as_ref(), table.as_os_str()]);
        t.gives(0, &list, &mut command);
        let mut command = t.command("/bin/sh");
        command.current_dir(&t.top).env("CDPATH", path).args([
            "mirvashol".as_ref(),
            "compile".as_ref(),
            table.as_os_str(),
        ]);
        t.gives(0, &list, &mut command);
    }

    // Through links, of links, from the PATH.
    fs::create_dir(t.work.join("bin")).expect("a folder");
    symlink(t.top.join("mirvashol"), t.work.join("bin/mirvashol")).expect("a link");
    symlink("bin/mirvashol", t.work.join("link")).expect("a link");
    symlink(&t.top, t.work.join("linked top")).expect("a link");
    for launcher in ["bin/mirvashol", "./link", "linked top/mirvashol"] {
        t.gives(0, &list, t.command(t.work.join(launcher)).args(["compile", "e1.spt"]));
        t.gives(0, &list, t.command("/bin/sh").args([launcher, "compile", "e1.spt"]));
    }
    let path = format!("{}:{PLAIN_PATH}", t.work.join("bin").display());
    t.gives(0, &list, t.shell("mirvashol compile e1.spt").env("PATH", path));

    // With the system's own programs alone.
    t.gives(
        0,
        &list,
        t.mirvashol(&["compile", "e1.spt"]).env_clear().env("PATH", PLAIN_PATH),
    );
    another_user(t);
}

/// A user who can write nothing here gets every answer, and is told what can't be written.
fn another_user(t: &mut Tests) {
    if fs::metadata(&t.work).map(|data| data.uid()).ok() != Some(0) {
        t.skipped("another user, as only root can become one");
        return;
    }
    // The folder itself can be entered.
    fs::set_permissions(&t.work, fs::Permissions::from_mode(0o755)).expect("a mode");
    let as_nobody = |command: &mut Command| {
        command
            .uid(NOBODY)
            .gid(NOBODY)
            .env("PATH", PLAIN_PATH)
            .env("HOME", "/nonexistent");
    };
    let mut can_enter = t.command("/bin/test");
    can_enter.arg("-x").arg(t.top.join("mirvashol"));
    as_nobody(&mut can_enter);
    if !can_enter.status().is_ok_and(|status| status.success()) {
        t.skipped("another user, as nobody else can enter the repository's folder");
        return;
    }
    let mut command = t.mirvashol(&["judge", "-q", "e1.spt", "e1.spl", "e11.spl"]);
    as_nobody(&mut command);
    t.gives(1, b"e1.spl: accepted\ne11.spl: refused 12 1 1\n", &mut command);
    let mut command = t.mirvashol(&["run", "e12.spt", "e12.spl", "e12.spx", "-q"]);
    as_nobody(&mut command);
    let line =
        "ending 4 received value lacks its type, statement 0, supplies 1, messages 1, values 2\nreceived on 0: 1\n";
    t.gives(1, line.as_bytes(), &mut command);
    let troubles: [(&[&str], &str); 4] = [
        (
            &["compile", "e1.spt", "-o", "nobody.spl"],
            "nobody.spl: can't be written: Permission denied",
        ),
        (
            &["compile", "e1.spt", "-o", "e2.spl"],
            "e2.spl: can't be written: Permission denied",
        ),
        (&["install"], "can't be made: Permission denied"),
        (&["install", "prefix"], "can't be made: Permission denied"),
    ];
    for (words, said) in troubles {
        let mut command = t.mirvashol(words);
        as_nobody(&mut command);
        t.troubled(said, &mut command);
    }
    // In a folder of their own: a file that they must not write is not replaced.
    let own = t.work.join("own");
    fs::create_dir(&own).expect("a folder");
    fs::set_permissions(&own, fs::Permissions::from_mode(0o777)).expect("a mode");
    t.write("own/kept.spl", b"kept");
    let mut command = t.mirvashol(&["compile", "e1.spt", "-o", "own/kept.spl"]);
    as_nobody(&mut command);
    t.troubled("own/kept.spl: can't be written: Permission denied", &mut command);
    t.check("it is kept", t.read("own/kept.spl") == b"kept", "");
    let mut command = t.mirvashol(&["compile", "e1.spt", "-o", "own/new.spl"]);
    as_nobody(&mut command);
    t.gives(0, b"", &mut command);
    fs::set_permissions(t.work.join("e11.spl"), fs::Permissions::from_mode(0o600)).expect("a mode");
    let mut command = t.mirvashol(&["judge", "-q", "e1.spt", "e11.spl", "e1.spl"]);
    as_nobody(&mut command);
    t.gives(
        2,
        b"e11.spl: can't be read: Permission denied\ne1.spl: accepted\n",
        &mut command,
    );
    let said = Said::of(&mut t.shell("ls -A own"));
    t.check(
        "nothing is left beside",
        said.out == b"kept.spl\nnew.spl\n",
        &said.seen(),
    );
}
