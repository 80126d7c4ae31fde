//! Judging a list against a table, and a whole shelf: one call against a call for each list.

use generate::raw::RawList;
use mirvashol::raw;
use second::service;

use crate::inputs::{shared_terms, TYPICAL_LIST, TYPICAL_TABLE};
use crate::measure::Row;
use crate::tables::LONGEST_LIST;

pub fn rows() -> Vec<Row> {
    let row = |input, table: Vec<u8>, list: Vec<u8>| {
        let (again, and_list, mut answer) = (table.clone(), list.clone(), [0; 8]);
        Row {
            input,
            ours: Box::new(move || raw::judge(&table, &list, &mut answer).into()),
            second: Box::new(move || service::judge(&again, &and_list)[0]),
        }
    };
    let worst = shared_terms();
    let list = longest_list(&worst);
    vec![
        row("typical", TYPICAL_TABLE.to_vec(), TYPICAL_LIST.to_vec()),
        row("worst: 512 statements over 128 shared terms", worst, list),
    ]
}

/// A month's lists of one table.
const SHELF: usize = 30;

/// The shelf of this many typical lists, in one call and in a call each.
pub fn shelf() -> Vec<Row> {
    let lists = TYPICAL_LIST.repeat(SHELF);
    let again = lists.clone();
    let lengths = [TYPICAL_LIST.len() as u64; SHELF];
    let (mut verdicts, mut other, mut answer) = ([0; 4 * SHELF], [0; 4 * SHELF], [0; 8]);
    vec![
        Row {
            input: "typical: 30 lists of one table, one call",
            ours: Box::new(move || {
                raw::judge_shelf(TYPICAL_TABLE, &lists, &lengths, &mut verdicts, &mut answer).into()
            }),
            second: Box::new(move || service::judge_shelf(TYPICAL_TABLE, &again, &lengths, &mut other)[0]),
        },
        Row {
            input: "typical: 30 lists of one table, 30 calls of judge",
            ours: Box::new(move || {
                let one = |_| u64::from(raw::judge(TYPICAL_TABLE, TYPICAL_LIST, &mut answer));
                (0..SHELF).map(one).sum()
            }),
            second: Box::new(|| (0..SHELF).map(|_| service::judge(TYPICAL_TABLE, TYPICAL_LIST)[0]).sum()),
        },
    ]
}

/// The table's list with its last build repeated until there are 512 statements.
pub fn longest_list(table: &[u8]) -> Vec<u8> {
    let mut bytes = vec![0; LONGEST_LIST];
    let answer = service::compile(table, &mut bytes);
    bytes.truncate(answer[3] as usize);
    let (_, list) = service::judged(table, &bytes).expect("the compiler's list is accepted");
    let mut raw = RawList::of(&list);
    let last = list.statements.iter().rposition(|s| s.is_build()).expect("a build");
    while raw.statements.len() < 512 {
        raw.statements.insert(last, raw.statements[last]);
    }
    raw.bytes()
}
