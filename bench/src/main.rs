//! Times each service against the second implementation, in one run: nanoseconds a call, and the ratio of the two. Below 1 ours is
//! the faster one.
//!
//! `bench [SERVICE..]` measures the named services, or all. Not part of the gate: the figures depend on what else runs.
//! `bench stack` measures the stack that each exported function needs instead; its status says whether all keep to the goal.
//! A further service is one further module with its `rows`, its line in `SERVICES`, and its name in `tools/bench`.

mod inputs;
mod judge;
mod measure;
mod readers;
mod run;
mod stack;
mod tables;

use std::process::ExitCode;

use measure::Row;

/// Each service by name, with what it is measured on.
const SERVICES: &[(&str, fn() -> Vec<Row>)] = &[
    ("check_table", readers::check_table),
    ("check_list", readers::check_list),
    ("check_trace", readers::check_trace),
    ("type_of", readers::type_of),
    ("type", tables::type_table),
    ("compile", tables::compile),
    ("judge", judge::rows),
    ("judge_shelf", judge::shelf),
    ("run", run::rows),
];

fn main() -> ExitCode {
    let asked: Vec<String> = std::env::args().skip(1).collect();
    if asked == ["stack"] {
        return ExitCode::from(u8::from(!stack::measure()));
    }
    let known: Vec<&str> = SERVICES.iter().map(|(name, _)| *name).collect();
    if let Some(word) = asked.iter().find(|word| !known.contains(&word.as_str())) {
        eprintln!("bench: there is no service '{word}'; there are {}", known.join(", "));
        return ExitCode::from(2);
    }
    println!(
        "{:12} {:52} {:>10} {:>10} {:>8}",
        "service", "input", "ours, ns", "second, ns", "ours/2nd"
    );
    for (name, rows) in SERVICES {
        if asked.is_empty() || asked.iter().any(|word| word == name) {
            for mut row in rows() {
                let (ours, second) = row.measure();
                let ratio = ours / second;
                println!("{name:12} {:52} {ours:10.0} {second:10.0} {ratio:8.2}", row.input);
            }
        }
    }
    ExitCode::SUCCESS
}
