//! Any file name: spaces, dashes, line feeds, bytes that are no text.

use std::ffi::OsString;
use std::fs;
use std::os::unix::ffi::OsStringExt;

use crate::tests::{Said, Tests};

pub fn all(t: &mut Tests) {
    let folder = t.work.join("na mes\n");
    fs::create_dir(&folder).expect("a folder");
    let names: [(&[u8], &str); 7] = [
        (b"a list.spl", "a list.spl"),
        (b"-q", "-q"),
        (b"--table", "--table"),
        (b"a\nb: accepted", "a\\nb: accepted"),
        (b"'\"$HOME`*?[x]", "'\"$HOME`*?[x]"),
        (b"\xff\x1b[2J", "\\xff\\u{1b}[2J"),
        ("Büch\u{202e}er".as_bytes(), "Büch\\u{202e}er"),
    ];
    let mut words = vec!["judge".into(), "--".into(), OsString::from("../e1.spt")];
    let mut wanted = String::new();
    for (name, shown) in names {
        let name = OsString::from_vec(name.to_vec());
        fs::write(folder.join(&name), marked::file("e1.spl")).expect("a list");
        words.push(name);
        wanted += &format!("{shown}: accepted\n");
    }
    let mut command = t.mirvashol(&words);
    t.gives(0, wanted.as_bytes(), command.current_dir(&folder));

    // One line stays one line where a name can't be read, and no option is taken for a name.
    let missing = OsString::from_vec(b"none\nx: accepted".to_vec());
    t.expect(
        2,
        "none\\nx: accepted: can't be read: No such file or directory\n",
        &["judge".into(), "e1.spt".into(), missing],
    );
    let strange = OsString::from_vec(b"strange\n\xfe name".to_vec());
    let words: [OsString; 4] = ["compile".into(), "e1.spt".into(), "-o".into(), strange.clone()];
    t.expect(0, "", &words);
    let right = fs::read(t.work.join(&strange)).is_ok_and(|bytes| bytes == marked::file("e1.spl"));
    t.check("a strange name is written", right, "");
    t.write("-dash", &marked::file("e1.spt"));
    let list = marked::file("e1.spl");
    t.gives(0, &list, &mut t.mirvashol(&["compile", "--", "-dash"]));
    t.gives(0, &list, &mut t.mirvashol(&["compile", "./-dash"]));
    t.troubled("compile has no option '-dash'", &mut t.mirvashol(&["compile", "-dash"]));
    let said = Said::of(&mut t.mirvashol(&["bad\ncommand"]));
    t.check(
        "a strange command",
        said.status == 2 && said.complains("'bad\\ncommand'"),
        &said.seen(),
    );
}
