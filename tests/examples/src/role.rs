//! A role's files and the answers to them, in the words of the README.md beside the files.

use second::service;
use second::Answer;

use crate::table::{TableWriter, Written};

/// A protocol: its folder and its roles.
pub struct Protocol {
    pub folder: &'static str,
    pub roles: Vec<Role>,
}

/// A role: its table, its list, other makers' lists, and the nights that it runs on.
pub struct Role {
    pub name: &'static str,
    pub table: Vec<u8>,
    /// What the table's symbols are called, by index.
    pub symbols: Vec<String>,
    /// The table's steps in the paper's notation.
    pub steps: Vec<String>,
    pub list: Vec<u8>,
    /// Other makers' lists by the ends of their file names, and the number that each is refused with; 0 is accepted.
    pub other_lists: Vec<(&'static str, u64, Vec<u8>)>,
    /// Traces by the ends of their file names, and the ending of each.
    pub nights: Vec<(&'static str, u64, Vec<u8>)>,
}

impl Role {
    /// A role from its table; the list is compiled.
    pub fn new(name: &'static str, writer: TableWriter) -> Role {
        let Written {
            bytes: table,
            symbols,
            steps,
        } = writer.finish();
        let mut list = vec![0; 26_632];
        let answer = service::compile(&table, &mut list);
        assert_eq!(answer[0], 0, "{name}: {answer:?}");
        list.truncate(answer[3] as usize);
        Role {
            name,
            table,
            symbols,
            steps,
            list,
            other_lists: Vec::new(),
            nights: Vec::new(),
        }
    }

    /// Another maker's list, and the number that it is refused with; 0 is accepted.
    pub fn other_list(mut self, called: &'static str, number: u64, make: fn(&Role) -> Vec<u8>) -> Role {
        let list = make(&self);
        self.other_lists.push((called, number, list));
        self
    }

    /// A night's trace, and the ending that it has.
    pub fn night(mut self, called: &'static str, ending: u64, trace: Vec<u8>) -> Role {
        self.nights.push((called, ending, trace));
        self
    }

    /// Each file's name and bytes.
    pub fn files(&self) -> Vec<(String, &[u8])> {
        let name = self.name;
        let mut files = vec![
            (format!("{name}.spt"), self.table.as_slice()),
            (format!("{name}.spl"), self.list.as_slice()),
        ];
        files.extend(
            self.other_lists
                .iter()
                .map(|(called, _, bytes)| (format!("{name}-{called}.spl"), bytes.as_slice())),
        );
        files.extend(
            self.nights
                .iter()
                .map(|(called, _, bytes)| (format!("{name}-{called}.spx"), bytes.as_slice())),
        );
        files
    }

    /// The steps, one a line with its index, as the block that README.md must have.
    pub fn process(&self) -> String {
        let line = |(i, words): (usize, &String)| format!("    {i:2}  {words}\n");
        let steps: String = self.steps.iter().enumerate().map(line).collect();
        format!("{steps}        0\n")
    }

    /// What the second implementation answers to each file, as the lines that README.md must have.
    pub fn lines(&self) -> Vec<String> {
        let name = self.name;
        let numbered = self
            .symbols
            .iter()
            .enumerate()
            .map(|(i, called)| format!("{i} {called}"));
        let symbols: Vec<String> = numbered.collect();
        let mut lines = vec![format!("| `{name}.spt` | {} |", symbols.join(", "))];
        let judged = |list: &[u8]| words(&service::judge(&self.table, list), "accepted".to_string());
        lines.push(format!("| `{name}.spl` | {} |", judged(&self.list)));
        for (called, _, list) in &self.other_lists {
            lines.push(format!("| `{name}-{called}.spl` | {} |", judged(list)));
        }
        for (called, _, trace) in &self.nights {
            let (answer, _, _) = self.run(trace);
            let ended = format!(
                "ending {}, statement {}, supplies used {}, messages {}",
                answer[3], answer[4], answer[5], answer[6]
            );
            lines.push(format!("| `{name}-{called}.spx` | {} |", words(&answer, ended)));
        }
        lines
    }

    /// The second implementation's run: its answer and both buffers.
    pub fn run(&self, trace: &[u8]) -> (Answer, Vec<u8>, Vec<u8>) {
        let (mut values, mut log) = (vec![0; 5 * 1536], vec![0; 5 * 512]);
        let answer = service::run(&self.table, &self.list, trace, &mut values, &mut log);
        (answer, values, log)
    }
}

/// The refusal, or these words.
fn words(answer: &Answer, fine: String) -> String {
    match answer[0] {
        0 => fine,
        number => format!("`refused {number} {} {}`", answer[1], answer[2]),
    }
}
