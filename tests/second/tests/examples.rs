//! E1 to E12, the marked examples of document 01, through the services; of E12 also what the process says.

use marked::{file, tried, Services};
use second::process::{run_process, Stuck};
use second::service;

const SECOND: Services = Services {
    types: service::type_table,
    compile: service::compile,
    judge: service::judge,
    run: service::run,
};

#[test]
fn every_marked_example() {
    let tried = tried(&SECOND);
    let wrong: Vec<&str> = tried.iter().filter(|(_, right)| !right).map(|(row, _)| *row).collect();
    assert_eq!(wrong, [""; 0]);
    assert!(tried.len() > 12);
}

#[test]
fn e12_the_process_says_one_message_more() {
    let [table, list, trace, values, log] = ["e12.spt", "e12.spl", "e12.spx", "e12.values", "e12.log"].map(file);
    let answer = [0, 0, 0, 4, 0, 1, 1, 2];
    assert_eq!(
        second::demand3::check(&table, &list, &trace, &answer, &values, &log),
        Ok(())
    );
    let parsed = second::read_table::read_table(&table).unwrap();
    let process = run_process(&parsed, &second::read_trace::read_trace(&trace).unwrap());
    assert_eq!(process.messages.len(), 2, "the process sends");
    assert_eq!(process.stuck, Some((2, Stuck::Split)));
}
