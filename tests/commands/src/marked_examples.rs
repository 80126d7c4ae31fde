//! Document 01's marked examples through the commands, and through the program `compile` in Rattle, which the scope owes.

use std::fs::File;

use crate::tests::{Said, Tests};

pub fn all(t: &mut Tests) {
    for (call, answer) in marked::rows() {
        let words: Vec<&str> = call.split(' ').collect();
        match (words[0], answer) {
            // `types` writes words and no bytes: those stand below.
            ("types", bytes) if !bytes.starts_with("refused") => {}
            ("judge", answer) => judged(t, &words, answer),
            (service, refused) if refused.starts_with("refused") => {
                let said = t.expect(1, &format!("{refused}\n"), &words);
                let seen = said.err.starts_with(&format!("{refused}\n"));
                t.check(
                    &format!("a refusal of {service} goes to standard error, too"),
                    seen,
                    &said.err,
                );
            }
            ("compile", list) => {
                let list = marked::file(list);
                let mut command = t.mirvashol(&words);
                t.gives(0, &list, &mut command);
            }
            _ => ran(t, &words, answer),
        }
        if words[0] == "compile" {
            in_rattle(t, words[1], answer);
        }
    }
    types(t);
}

fn judged(t: &mut Tests, words: &[&str], answer: &str) {
    let status = i32::from(answer != "accepted");
    let quiet: Vec<&str> = words.iter().copied().chain(["-q"]).collect();
    t.expect(status, &format!("{}: {answer}\n", words[2]), &quiet);
}

/// A run gives these numbers and the bytes of both files; with -q its lines are those of the bytes.
fn ran(t: &mut Tests, words: &[&str], answer: &str) {
    let answer: Vec<&str> = answer.split(' ').collect();
    let [ending, statement, supplies, messages, values, values_file, log_file] = answer[..] else {
        panic!("the answer of a run: {answer:?}");
    };
    let words: Vec<&str> = words.iter().copied().chain(["values", "log", "-q"]).collect();
    let said = Said::of(&mut t.mirvashol(&words));
    let first = said.text().lines().next().unwrap_or_default().to_string();
    let numbers: Vec<&str> = first
        .split(|c: char| !c.is_ascii_digit())
        .filter(|word| !word.is_empty())
        .collect();
    let right = said.status == i32::from(ending != "0")
        && numbers == [ending, statement, supplies, messages, values]
        && t.read("values") == marked::file(values_file)
        && t.read("log") == marked::file(log_file)
        && said.text().lines().count() == 1 + t.read("log").len() / 5;
    t.check(&format!("{words:?}"), right, &said.seen());
}

/// The program in Rattle: a table on standard input, its list or the refusal's line on standard output.
fn in_rattle(t: &mut Tests, table: &str, answer: &str) {
    let bytes = match answer.starts_with("refused") {
        true => format!("{answer}\n").into_bytes(),
        false => marked::file(answer),
    };
    let mut command = t.command(t.top.join("tools/program"));
    command
        .arg("compile")
        .stdin(File::open(t.work.join(table)).expect("a table"));
    t.gives(0, &bytes, &mut command);
}

fn types(t: &mut Tests) {
    let e1 = "0 name free Channel\n1 name free ShKey\n2 variable bound ciphertext(Message)\n3 variable bound Message\n";
    t.expect(0, e1, &["types", "e1.spt"]);
    t.expect(0, "", &["types", "e2.spt"]);
    let e7 = "0 variable free pair(Channel, Message)\n1 variable bound Channel\n2 variable bound Message\n\
              3 variable bound Message\n4 variable bound Message\n";
    t.expect(0, e7, &["types", "e7.spt"]);
    let asking = "0 name free Channel\n1 name free ShKey\n2 name free Channel\n3 name bound Name\n\
                  4 variable bound ciphertext(pair(Message, Message))\n5 variable bound pair(Message, Message)\n\
                  6 variable bound Message\n7 variable bound Message\n";
    let table = t.example("incident/asking.spt");
    t.expect(0, asking, &["types", &table]);
}
