//! Running a judged list on a trace.

use generate::raw::{RawTable, RawTrace};
use mirvashol::raw;
use second::service;

use crate::inputs::{full_trace, tower, tower_terms, TYPICAL_LIST, TYPICAL_TABLE, TYPICAL_TRACE};
use crate::judge::longest_list;
use crate::measure::Row;

/// Buffers that are long enough for every run.
fn buffers() -> (Vec<u8>, Vec<u8>) {
    (vec![0; 5 * (1024 + 512)], vec![0; 5 * 512])
}

pub fn rows() -> Vec<Row> {
    let row = |input, table: Vec<u8>, list: Vec<u8>, trace: Vec<u8>| {
        let (again, and_list, and_trace, mut answer) = (table.clone(), list.clone(), trace.clone(), [0; 8]);
        let ((mut values, mut log), (mut others, mut other_log)) = (buffers(), buffers());
        Row {
            input,
            ours: Box::new(move || raw::run(&table, &list, &trace, &mut values, &mut log, &mut answer).into()),
            second: Box::new(move || service::run(&again, &and_list, &and_trace, &mut others, &mut other_log)[0]),
        }
    };
    // One step over the 128 shared terms, so that the list has 511 builds.
    let worst = tower(vec![[3, 127, 127, 0, 0]]);
    let list = longest_list(&worst);
    vec![
        row(
            "typical",
            TYPICAL_TABLE.to_vec(),
            TYPICAL_LIST.to_vec(),
            TYPICAL_TRACE.to_vec(),
        ),
        row("worst: 1,024 values and 511 builds", worst, list, full_trace(96)),
        row(
            "worst: 62 fresh names beside 1,088 held values, 447 builds",
            fresh_names(),
            longest_list(&fresh_names()),
            held_values(),
        ),
    ]
}

/// The 128 shared terms are compared and split, so that values made of them are held; then 62 fresh names are made. The 31
/// variables that nothing binds hold what they start with.
fn fresh_names() -> Vec<u8> {
    let mut steps = vec![[3, 127, 127, 0, 0], [4, 126, 0, 63, 64]];
    steps.extend((1..=62).map(|x| [2, 0, 0, x, 0]));
    RawTable {
        symbols: [vec![0; 63], vec![1; 33]].concat(),
        terms: tower_terms(),
        steps,
    }
    .bytes()
}

/// A key, 62 atoms that are supplied, and 961 pairs, each of the one before twice; the variables hold the last.
fn held_values() -> Vec<u8> {
    let mut values = vec![[0, 0, 2, 0, 0]];
    values.extend((1..=62).map(|number| [0, 0, 0, 0, number]));
    for i in 63..1024_u16 {
        let [high, low] = if i == 63 { [0, 0] } else { (i - 1).to_be_bytes() };
        values.push([1, high, low, high, low]);
    }
    RawTrace {
        values,
        starting: [vec![0], vec![1023; 31]].concat(),
        supply: (1..=62).collect(),
    }
    .bytes()
}
