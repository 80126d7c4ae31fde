//! The readers of the three files, and the part of a list that holds a type.

use mirvashol::raw;
use second::service;

use crate::inputs::{full_trace, longest_bytes, shared_terms, TYPICAL_LIST, TYPICAL_TABLE, TYPICAL_TRACE};
use crate::measure::Row;

pub fn check_table() -> Vec<Row> {
    let row = |input, table: Vec<u8>| {
        let (again, mut answer) = (table.clone(), [0; 8]);
        Row {
            input,
            ours: Box::new(move || raw::check_table(&table, &mut answer).into()),
            second: Box::new(move || service::check_table(&again)[0]),
        }
    };
    vec![
        row("typical", TYPICAL_TABLE.to_vec()),
        row("worst: 64 steps over 128 shared terms", shared_terms()),
    ]
}

pub fn check_list() -> Vec<Row> {
    let row = |input, list: Vec<u8>| {
        let (again, mut answer) = (list.clone(), [0; 8]);
        Row {
            input,
            ours: Box::new(move || raw::check_list(&list, 5, &mut answer).into()),
            second: Box::new(move || service::check_list(&again, 5)[0]),
        }
    };
    vec![
        row("typical", TYPICAL_LIST.to_vec()),
        row("worst: 96 types of 255 bytes, 512 statements", longest_bytes()),
    ]
}

pub fn check_trace() -> Vec<Row> {
    let row = |input, trace: Vec<u8>| {
        let (again, mut answer) = (trace.clone(), [0; 8]);
        Row {
            input,
            ours: Box::new(move || raw::check_trace(&trace, &mut answer).into()),
            second: Box::new(move || service::check_trace(&again)[0]),
        }
    };
    vec![
        row("typical", TYPICAL_TRACE.to_vec()),
        row("worst: 1,024 values, 96 starting, 128 supplied", full_trace(96)),
    ]
}

pub fn type_of() -> Vec<Row> {
    let row = |input, list: Vec<u8>, symbol| {
        let (again, mut answer) = (list.clone(), [0; 8]);
        Row {
            input,
            ours: Box::new(move || raw::type_of(&list, symbol, &mut answer).into()),
            second: Box::new(move || service::type_of(&again, symbol)[0]),
        }
    };
    vec![
        row("typical", TYPICAL_LIST.to_vec(), 9),
        row("worst: the last of 96 types of 255 bytes", longest_bytes(), 95),
    ]
}
