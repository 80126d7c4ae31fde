//! The differential test: the proved static library and the second implementation answer the same generated cases. First of all
//! the static library answers document 01's marked examples.
//!
//! `differential [--cases N | --in-all N] [--seed X] [--only SERVICE] [--from I]`: N cases of each service, or N in all. With
//! `--from` they start at case I, to see a case again, and nothing is owed. The last line is `N passed, M failed`: N cases compared
//! equal; M are the cases that differ, and one for each answer, ending, kind, damage and length of a buffer that no case hit. Exit
//! status 1 where M is not 0, 2 for wrong use.
//! A further service is one further module with a `SERVICE`, and its line in `SERVICES`.

mod check_list;
mod check_table;
mod check_trace;
mod compare;
mod compile;
mod exported;
mod inputs;
mod judge;
mod judge_shelf;
mod lent;
mod report;
mod room;
mod run;
mod service;
mod type_of;
mod type_table;

use std::process::ExitCode;

use generate::Rng;

use report::Report;
use service::Service;

const SERVICES: &[Service] = &[
    check_table::SERVICE,
    check_list::SERVICE,
    check_trace::SERVICE,
    type_of::SERVICE,
    type_table::SERVICE,
    compile::SERVICE,
    judge::SERVICE,
    judge_shelf::SERVICE,
    run::SERVICE,
];

fn main() -> ExitCode {
    let Some(asked) = arguments(std::env::args().skip(1).collect()) else {
        let names: Vec<&str> = SERVICES.iter().map(|service| service.name).collect();
        let names = names.join("|");
        eprintln!("use: differential [--cases N | --in-all N] [--seed X] [--only {names}] [--from I]");
        return ExitCode::from(2);
    };
    let mut report = Report::default();
    if asked.from.is_none() {
        for (example, right) in marked::tried(&exported::EXPORTED) {
            report.example(example, right);
        }
    }
    for service in &asked.services {
        // Each service has its own cases, the same ones whatever other services are asked.
        let seed = service
            .name
            .bytes()
            .fold(asked.seed, |seed, byte| Rng::part(seed, byte.into()).number());
        let first = asked.from.unwrap_or(0);
        for index in first..first + asked.cases {
            let case = (service.case)(&mut Rng::part(seed, index));
            report.add(service, case, asked.seed, index);
        }
    }
    if report.close(&asked.services, asked.seed, asked.from.is_none()) {
        ExitCode::SUCCESS
    } else {
        ExitCode::from(1)
    }
}

struct Asked {
    cases: u64,
    seed: u64,
    from: Option<u64>,
    services: Vec<&'static Service>,
}

fn arguments(given: Vec<String>) -> Option<Asked> {
    let mut asked = Asked {
        cases: 20_000,
        seed: 1,
        from: None,
        services: SERVICES.iter().collect(),
    };
    let mut in_all = None;
    for pair in given.chunks(2) {
        let [name, value] = pair else {
            return None;
        };
        match name.as_str() {
            "--cases" => asked.cases = value.parse().ok()?,
            "--in-all" => in_all = Some(value.parse::<u64>().ok()?),
            "--seed" => asked.seed = value.parse().ok()?,
            "--from" => asked.from = Some(value.parse().ok()?),
            "--only" => asked.services.retain(|service| service.name == value),
            _ => return None,
        }
    }
    if asked.services.is_empty() {
        return None;
    }
    if let Some(cases) = in_all {
        asked.cases = cases / asked.services.len() as u64;
    }
    Some(asked)
}
