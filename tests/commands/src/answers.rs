//! What the answers say: fixed lines, and words below them.

use std::fs;
use std::time::Instant;

use crate::tests::{Said, Tests};

pub fn all(t: &mut Tests) {
    incident(t);
    documents(t);
    in_order(t);
    in_words(t);
    explained(t);
    helped(t);
    any_length(t);
    many(t);
}

/// The honest list and the firm's; a good night and a replayed one.
fn incident(t: &mut Tests) {
    let [table, honest, firm] =
        ["asking.spt", "asking.spl", "asking-firm.spl"].map(|name| t.example(&format!("incident/{name}")));
    let [good, replayed] =
        ["asking-good.spx", "asking-replayed.spx"].map(|name| t.example(&format!("incident/{name}")));
    let verdicts = format!("{honest}: accepted\n{firm}: refused 12 1 6\n");
    t.expect(1, &verdicts, &["judge", "-q", &table, &honest, &firm]);
    let said = Said::of(&mut t.mirvashol(&["judge", &table, &honest, &firm]));
    let text = said.text();
    let words = text.strip_prefix(&verdicts).unwrap_or_default();
    let right = said.status == 1 && !words.is_empty() && words.lines().all(|line| line.starts_with("    "));
    t.check(
        "the firm's list: the verdicts, then indented words",
        right,
        &said.seen(),
    );
    let right = words.contains("statement 6") && words.contains("step 5");
    t.check(
        "they name the statement at fault, and the step that was due",
        right,
        words,
    );
    let good_lines = "ending 0 finished, statement 8, supplies 2, messages 3, values 7\nsent on 0: 3\nreceived on 0: 6\nsent on 2: 4\n";
    t.expect(0, good_lines, &["run", "-q", &table, &honest, &good]);
    let replayed_lines =
        "ending 2 comparison failed, statement 6, supplies 2, messages 2, values 8\nsent on 0: 3\nreceived on 0: 7\n";
    t.expect(
        1,
        replayed_lines,
        &["run", "-q", &table, &honest, &replayed, "values", "log"],
    );
    let said = Said::of(&mut t.mirvashol(&["run", &table, &honest, &replayed]));
    let last = said.text().lines().last().unwrap_or_default().to_string();
    t.check(
        "a run that stops says at which statement",
        last.starts_with("    ") && last.contains('6'),
        &said.text(),
    );
    // A refused run leaves the files that it names as they are.
    let log = [0, 0, 0, 0, 3, 1, 0, 0, 0, 7];
    t.check(
        "the replayed night's log",
        t.read("log") == log && t.read("values").len() == 40,
        "",
    );
    t.expect(1, "refused 12 1 6\n", &["run", &table, &firm, &good, "values", "log"]);
    t.check(
        "a refused run leaves both files",
        t.read("log") == log && t.read("values").len() == 40,
        "",
    );
    for words in [
        vec!["show", "--values", "values"],
        vec!["show", "--log", "log"],
        vec!["show", "--log", "log", "--values", "values"],
    ] {
        let said = Said::of(&mut t.mirvashol(&words));
        t.check(
            &format!("{words:?}"),
            said.status == 0 && said.text().lines().count() > 1,
            &said.seen(),
        );
    }
}

/// What README.md and the guide show is what is printed.
fn documents(t: &mut Tests) {
    let folder = "examples/incident/";
    for (document, command, files) in [
        ("README.md", "judge", ["asking.spt", "asking.spl", "asking-firm.spl"]),
        ("docs/GUIDE.md", "run", ["asking.spt", "asking.spl", "asking-good.spx"]),
    ] {
        let files = files.map(|name| format!("{folder}{name}"));
        let said = Said::of(t.mirvashol(&[command]).args(files).current_dir(&t.top));
        let lines: String = said.text().lines().map(|line| format!("    {line}\n")).collect();
        let text = fs::read_to_string(t.top.join(document)).expect("a document");
        t.check(
            &format!("{document} shows what is printed"),
            text.contains(&lines),
            &lines,
        );
    }
}

/// One line a list, in order, unreadable ones too; the worst status.
fn in_order(t: &mut Tests) {
    let lines = "e1.spl: accepted\ne11.spl: refused 12 1 1\ne11-3.spl: refused 5 1 21\n";
    t.expect(1, lines, &["judge", "-q", "e1.spt", "e1.spl", "e11.spl", "e11-3.spl"]);
    let lines = "missing.spl: can't be read: No such file or directory\n.: can't be read: Is a directory\n\
                 e11.spl: refused 12 1 1\ne1.spl: accepted\n";
    let said = t.expect(
        2,
        lines,
        &["judge", "-q", "e1.spt", "missing.spl", ".", "e11.spl", "e1.spl"],
    );
    let errors = "missing.spl: can't be read: No such file or directory\n.: can't be read: Is a directory\ne11.spl: refused 12 1 1\n";
    t.check(
        "what is not accepted goes to standard error, too",
        said.err == errors,
        &said.err,
    );
    t.expect(
        2,
        "e1.spl: accepted\nmissing.spl: can't be read: No such file or directory\n",
        &["judge", "e1.spt", "e1.spl", "missing.spl"],
    );
    // A table that is refused is every list's refusal.
    t.expect(
        1,
        "e1.spl: refused 10 0 0\ne2.spl: refused 10 0 0\n",
        &["judge", "-q", "e5.spt", "e1.spl", "e2.spl"],
    );
    // Both streams to one place: said once.
    t.gives(
        1,
        b"e11.spl: refused 12 1 1\n",
        &mut t.shell("\"$1\" judge -q e1.spt e11.spl 2>&1"),
    );
}

/// Refusals in words, on standard error where standard output holds fixed lines alone; -q leaves them out.
fn in_words(t: &mut Tests) {
    for words in [
        vec!["compile", "e5.spt"],
        vec!["types", "e6.spt"],
        vec!["run", "e1.spt", "e11.spl", "e1.spx"],
    ] {
        let said = Said::of(&mut t.mirvashol(&words));
        let (first, rest) = said.err.split_once('\n').unwrap_or_default();
        let right = said.text() == format!("{first}\n")
            && rest.lines().count() > 0
            && rest.lines().all(|line| line.starts_with("    "));
        t.check(&format!("{words:?} says what the refusal means"), right, &said.seen());
        let quiet: Vec<&str> = words.iter().copied().chain(["-q"]).collect();
        let said = Said::of(&mut t.mirvashol(&quiet));
        t.check(
            &format!("{quiet:?} says the fixed line alone"),
            said.text() == said.err,
            &said.seen(),
        );
    }
    // Damaged files are shown as far as they can be read.
    let mut damaged = marked::file("e1.spt");
    damaged[25] = 9;
    t.write("damaged.spt", &damaged);
    t.write("cut.spl", &marked::file("e1.spl")[..22]);
    for (name, refusal) in [
        ("damaged.spt", "refused 5 0 24"),
        ("cut.spl", "refused 4 1 0"),
        ("e5.spt", "refused 10 0 0"),
    ] {
        let said = Said::of(&mut t.mirvashol(&["show", name]));
        let right = said.status == 1 && said.text().contains(refusal) && said.text().lines().count() > 2;
        t.check(
            &format!("show {name}: its refusal, and what could be read"),
            right,
            &said.seen(),
        );
    }
    let said = Said::of(&mut t.mirvashol(&["show", "e1.types"]));
    t.check(
        "show of no known file",
        said.status == 1 && said.text().contains("marks"),
        &said.seen(),
    );
}

/// `explain` prints the paragraphs of docs/NUMBERS.txt, and takes what was printed.
fn explained(t: &mut Tests) {
    let numbers = fs::read_to_string(t.top.join("docs/NUMBERS.txt")).expect("docs/NUMBERS.txt");
    let paragraphs: Vec<&str> = numbers
        .split("\n\n")
        .skip(1)
        .map(|paragraph| paragraph.trim_end())
        .collect();
    for paragraph in &paragraphs {
        let key = paragraph.split(':').next().unwrap_or_default();
        let words: Vec<&str> = key.split(' ').filter(|&word| word != "refusal").collect();
        let words: Vec<&str> = ["explain"].into_iter().chain(words).collect();
        t.expect(0, &format!("{paragraph}\n"), &words);
    }
    let find = |key: &str| {
        paragraphs
            .iter()
            .find(|paragraph| paragraph.starts_with(key))
            .expect("a paragraph")
            .to_string()
    };
    let (twelve, two) = (find("refusal 12:"), find("ending 2:"));
    let here = format!("{twelve}\n  Here: file 1 is the list, and the place is 6.\n");
    t.expect(0, &here, &["explain", "refused", "12", "1", "6"]);
    t.expect(0, &here, &["explain", "refused 12 1 6"]);
    t.expect(0, &here, &["explain", "shelf/a list.spl: refused 12 1 6"]);
    t.expect(
        0,
        &format!("{two}\n"),
        &[
            "explain",
            "ending",
            "2",
            "comparison",
            "failed,",
            "statement",
            "6,",
            "supplies",
            "2",
        ],
    );
    t.expect(0, &format!("{twelve}\n\n{two}\n"), &["explain", "12", "ending", "2"]);
}

/// Each command has its help, and the overview names each.
fn helped(t: &mut Tests) {
    let overview = Said::of(&mut t.mirvashol(&["help"])).text();
    let words: [&[&str]; 3] = [&[], &["--help"], &["-h"]];
    for words in words {
        t.expect(0, &overview, words);
    }
    let commands = [
        "compile", "types", "judge", "run", "show", "explain", "install", "build", "demo", "test", "bench", "help",
    ];
    for command in commands {
        let line = format!("mirvashol {command}");
        t.check(&format!("help names {command}"), overview.contains(&line), &overview);
        let said = Said::of(&mut t.mirvashol(&[command, "--help"]));
        t.check(
            &format!("{command} --help"),
            said.status == 0 && said.text().starts_with(&line),
            &said.seen(),
        );
        t.expect(0, &said.text(), &["help", command]);
    }
    let version = fs::read_to_string(t.top.join("VERSION")).expect("VERSION");
    t.expect(0, &format!("mirvashol {version}"), &["--version"]);
}

/// Input of any length is answered.
fn any_length(t: &mut Tests) {
    t.write("long.spt", &[0; 100_000]);
    t.expect(1, "refused 1 0 0\n", &["compile", "long.spt"]);
    t.write("longer.spt", &[marked::file("e1.spt"), vec![0; 100_000]].concat());
    t.expect(1, "refused 4 0 0\n", &["compile", "longer.spt"]);
    t.expect(1, "/dev/zero: refused 1 1 0\n", &["judge", "-q", "e1.spt", "/dev/zero"]);
    t.expect(1, "refused 1 0 0\n", &["compile", "/dev/zero"]);
    t.write("empty", b"");
    t.expect(1, "refused 1 0 0\n", &["compile", "empty"]);
}

/// 300 lists in one call, in under 0.3 s.
fn many(t: &mut Tests) {
    let mut words = vec!["judge".to_string(), t.example("incident/asking.spt")];
    let mut wanted = String::new();
    for i in 0..300 {
        let (from, answer) = match i % 3 {
            0 => ("asking-firm.spl", "refused 12 1 6"),
            _ => ("asking.spl", "accepted"),
        };
        let name = format!("list-{i}.spl");
        fs::copy(t.example(&format!("incident/{from}")), t.work.join(&name)).expect("a list");
        wanted += &format!("{name}: {answer}\n");
        words.push(name);
    }
    let said = Said::of(&mut t.mirvashol(&words));
    // The best of three: others may use the machine.
    let once = |_| {
        let start = Instant::now();
        Said::of(&mut t.mirvashol(&words));
        start.elapsed()
    };
    let time = (0..3).map(once).min().unwrap_or_default();
    let fixed: String = said
        .text()
        .lines()
        .filter(|line| !line.starts_with(' '))
        .map(|line| format!("{line}\n"))
        .collect();
    t.check("300 lists, in order", said.status == 1 && fixed == wanted, &fixed);
    println!("300 lists in one call: {} ms", time.as_millis());
    t.check("300 lists in under 0.3 s", time.as_millis() < 300, &format!("{time:?}"));
}
