//! All of examples/, as each README.md says: `ROLE.spt` compiles to `ROLE.spl`, lists are judged, and traces run on the role's own list. Each file
//! is shown in words, too.

use std::fs;

use crate::tests::{Said, Tests};

const ENDINGS: [&str; 8] = [
    "finished",
    "no supply left",
    "comparison failed",
    "wrong key",
    "received value lacks its type",
    "decrypted value lacks its type",
    "supplied value is not a fresh atom",
    "fresh name lacks its type",
];

pub fn all(t: &mut Tests) {
    let folders = fs::read_dir(t.top.join("examples")).expect("examples/");
    let mut folders: Vec<_> = folders
        .map(|entry| entry.expect("a folder").file_name().into_string().unwrap())
        .collect();
    folders.retain(|name| name != "README.md");
    folders.sort();
    t.check("eight protocols", folders.len() == 8, &format!("{folders:?}"));
    for folder in folders {
        let document = fs::read_to_string(t.example(&format!("{folder}/README.md"))).expect("a README.md");
        for (name, answer) in document.lines().filter_map(row) {
            // The role is the name up to the first dash or dot.
            let role = name.split(['-', '.']).next().unwrap_or_default();
            let file = |name: &str| t.example(&format!("{folder}/{name}"));
            let (table, list, named) = (file(&format!("{role}.spt")), file(&format!("{role}.spl")), file(name));
            match name.rsplit('.').next() {
                Some("spt") => {
                    let bytes = fs::read(&list).expect("a list");
                    let mut command = t.mirvashol(&["compile", &table]);
                    t.gives(0, &bytes, &mut command);
                }
                Some("spl") => {
                    let status = i32::from(answer != "accepted");
                    t.expect(
                        status,
                        &format!("{named}: {answer}\n"),
                        &["judge", "-q", &table, &named],
                    );
                }
                _ => ran(t, &[&table, &list, &named], answer),
            }
            shown(t, &table, &named);
        }
    }
}

/// A row of a README's table of files and answers.
fn row(line: &str) -> Option<(&str, &str)> {
    let (name, answer) = line.strip_prefix("| `")?.strip_suffix(" |")?.split_once("` | ")?;
    Some((name, answer.trim_matches('`')))
}

/// `ending 2, statement 6, supplies used 2, messages 2`, as a run's first line begins.
fn ran(t: &mut Tests, files: &[&str; 3], answer: &str) {
    let rest = answer.strip_prefix("ending ").expect("an ending");
    let (number, counts) = rest.split_at(1);
    let words = ENDINGS[number.parse::<usize>().expect("an ending")];
    let begins = format!("ending {number} {words}{}, values ", counts.replace(" used", ""));
    let [table, list, trace] = *files;
    let said = Said::of(&mut t.mirvashol(&["run", table, list, trace]));
    let right = said.status == i32::from(number != "0") && said.text().starts_with(&begins);
    t.check(&format!("run {trace}: {begins}"), right, &said.seen());
    // With -q a line is the place alone; else the term stands behind it.
    let quiet = Said::of(&mut t.mirvashol(&["run", "-q", table, list, trace]));
    let (long, short) = (said.text(), quiet.text());
    let mut lines = long.lines().zip(short.lines()).skip(1);
    let right = lines.all(|(long, short)| long.strip_prefix(short).is_some_and(|term| term.starts_with("  ")));
    t.check(&format!("run {trace}: terms beside their places"), right, &said.text());
}

/// Any file in words, by itself and with its table.
fn shown(t: &mut Tests, table: &str, file: &str) {
    for words in [vec!["show", file], vec!["show", file, "--table", table]] {
        let said = Said::of(&mut t.mirvashol(&words));
        let right = said.status == 0 && said.text().lines().count() > 3 && said.err.is_empty();
        t.check(&format!("{words:?}"), right, &said.seen());
    }
}
