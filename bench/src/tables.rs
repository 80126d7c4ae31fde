//! Typing and compiling a table.

use generate::raw::RawTable;
use mirvashol::raw;
use second::{service, Answer};

use crate::inputs::{shared_terms, TYPICAL_TABLE};
use crate::measure::Row;

/// The longest list there is.
pub const LONGEST_LIST: usize = 8 + 96 * 256 + 4 * 512;

pub fn type_table() -> Vec<Row> {
    rows(raw::type_table, service::type_table)
}

pub fn compile() -> Vec<Row> {
    rows(raw::compile, service::compile)
}

fn rows(ours: fn(&[u8], &mut [u8], &mut [u64]) -> u8, second: fn(&[u8], &mut [u8]) -> Answer) -> Vec<Row> {
    let row = |input, table: Vec<u8>| {
        let (again, mut answer) = (table.clone(), [0; 8]);
        let (mut out, mut other) = (vec![0; LONGEST_LIST], vec![0; LONGEST_LIST]);
        Row {
            input,
            ours: Box::new(move || ours(&table, &mut out, &mut answer).into()),
            second: Box::new(move || second(&again, &mut other)[0]),
        }
    };
    vec![
        row("typical", TYPICAL_TABLE.to_vec()),
        row("worst: 64 steps over 128 shared terms", shared_terms()),
        row("worst: 47 splits, a type of 95 bytes", large_types()),
    ]
}

/// A free variable split 47 times, each time the right part of the split before; the left parts are channels as far as there
/// are steps. The first type has 95 bytes.
fn large_types() -> Vec<u8> {
    let mut raw = RawTable {
        symbols: vec![1; 95],
        ..RawTable::default()
    };
    for i in 0..47_u8 {
        let whole = raw.term([0, 2 * i, 0]);
        raw.steps.push([4, whole, 0, 2 * i + 1, 2 * i + 2]);
    }
    for i in 0..17_u8 {
        let left = raw.term([0, 2 * i + 1, 0]);
        raw.steps.push([0, left, left, 0, 0]);
    }
    raw.bytes()
}
