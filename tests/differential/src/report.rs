//! Counts by service, title and label, and the few differing cases that are printed.

use std::collections::BTreeMap;

use crate::service::{Case, Service};

const PRINTED: usize = 5;

#[derive(Default)]
pub struct Report {
    equal: usize,
    different: usize,
    counts: BTreeMap<(&'static str, &'static str), BTreeMap<String, usize>>,
}

impl Report {
    /// A marked example: its answer is the document's, or not.
    pub fn example(&mut self, example: &str, right: bool) {
        if right {
            self.equal += 1;
        } else {
            self.different += 1;
            println!("{example}: not the document's answer");
        }
    }

    pub fn add(&mut self, service: &Service, case: Case, seed: u64, index: u64) {
        for (title, label) in case.counted {
            let labels = self.counts.entry((service.name, title)).or_default();
            *labels.entry(label).or_default() += 1;
        }
        let Some(words) = case.difference else {
            self.equal += 1;
            return;
        };
        self.different += 1;
        if self.different <= PRINTED {
            println!("seed {seed}, case {index} of {}: {words}", service.name);
            for (name, bytes) in &case.inputs {
                println!("  {name} {}", hex(bytes));
            }
        }
    }

    /// Prints the counts and, as the last line, the sum. Says whether all is well: no difference and, unless nothing is owed, all
    /// that is owed was hit.
    pub fn close(&self, services: &[&Service], seed: u64, owing: bool) -> bool {
        let mut missed = 0;
        println!(
            "seed {seed}, {} cases with the marked examples",
            self.equal + self.different
        );
        for service in services {
            for (title, labels) in &(service.owed)() {
                let none = BTreeMap::new();
                let counts = self.counts.get(&(service.name, *title)).unwrap_or(&none);
                let hits = |label: &String| counts.get(label).copied().unwrap_or(0);
                let others = counts.keys().filter(|label| !labels.contains(label));
                let line: Vec<String> = labels
                    .iter()
                    .chain(others)
                    .map(|label| format!("{label}: {}", hits(label)))
                    .collect();
                println!("{} by {title}: {}", service.name, line.join(", "));
                for label in labels.iter().filter(|label| owing && hits(label) == 0) {
                    println!("{}: no case with {title} {label}", service.name);
                    missed += 1;
                }
            }
        }
        println!("{} passed, {} failed", self.equal, self.different + missed);
        self.different + missed == 0
    }
}

fn hex(bytes: &[u8]) -> String {
    bytes.iter().map(|byte| format!("{byte:02x}")).collect()
}
