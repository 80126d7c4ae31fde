//! What each refusal means, as the files in `expected/` have it.

use generate::raw::RawTable;
use marked::file;

use crate::library;
use crate::tests::{compiled, example, judge, run, same, ENOUGH};

/// The refusal's line and its words.
fn told(answer: [u64; 3], table: &[u8], list: Option<&[u8]>, trace: Option<&[u8]>) -> String {
    let [number, file, place] = answer;
    let words = crate::refusal(number, file, place, table, list, trace);
    format!("refused {number} {file} {place}\n{words}")
}

fn of_table(table: &[u8]) -> String {
    let refusal = library::types(table).expect_err("a refusal");
    told([refusal.number, refusal.file, refusal.place], table, None, None)
}

fn of_list(table: &[u8], list: &[u8]) -> String {
    let [number, file, place, ..] = judge(table, list);
    told([number, file, place], table, Some(list), None)
}

fn of_run(table: &[u8], trace: &[u8], room: [usize; 2]) -> String {
    let list = compiled(table);
    let ([number, file, place, ..], _) = run(table, &list, trace, room);
    told([number, file, place], table, Some(&list), Some(trace))
}

/// A file with some bytes changed.
fn with(mut file: Vec<u8>, changes: &[(usize, u8)]) -> Vec<u8> {
    changes.iter().for_each(|&(at, byte)| file[at] = byte);
    file
}

/// A table of these entries.
fn made(symbols: &[u8], terms: &[[u8; 3]], steps: &[[u8; 5]]) -> Vec<u8> {
    let raw = RawTable {
        symbols: symbols.to_vec(),
        terms: terms.to_vec(),
        steps: steps.to_vec(),
    };
    raw.bytes()
}

#[test]
fn numbers_1_to_9_of_a_table() {
    let e1 = || file("e1.spt");
    let used_later = made(
        &[0, 1],
        &[[0, 0, 0], [0, 1, 0], [1, 0, 1]],
        &[[0, 0, 2, 0, 0], [1, 0, 0, 1, 0]],
    );
    let cases = [
        of_table(&file("e3.spt")),
        of_table(&file("e1.spl")),
        of_table(b"nothing like it"),
        of_table(&with(e1(), &[(4, 2)])),
        of_table(&with(e1(), &[(5, 97), (7, 65)])),
        of_table(&e1()[..38]),
        of_table(&with(e1(), &[(9, 2)])),
        of_table(&with(e1(), &[(12, 3)])),
        of_table(&with(e1(), &[(12, 1)])),
        of_table(&with(e1(), &[(13, 4)])),
        of_table(&with(e1(), &[(24, 7)])),
        of_table(&with(e1(), &[(25, 4)])),
        of_table(&with(e1(), &[(26, 1)])),
        of_table(&with(e1(), &[(27, 1)])),
        of_table(&with(e1(), &[(16, 0)])),
        of_table(&with(e1(), &[(36, 0)])),
        of_table(&with(e1(), &[(32, 2)])),
        of_table(&file("e9.spt")),
        of_table(&file("e10.spt")),
        of_table(&used_later),
    ];
    same(&cases.join("\n"), "of-tables.txt");
}

#[test]
fn number_10() {
    // x is split twice; a left part is a channel, the other a key.
    let parts = made(
        &[1, 1, 1, 1, 1, 1, 1],
        &[[0, 0, 0], [0, 1, 0], [0, 3, 0], [0, 6, 0]],
        &[[4, 0, 0, 1, 2], [4, 0, 0, 3, 4], [0, 1, 0, 0, 0], [5, 3, 2, 5, 0]],
    );
    // A pair as a key, deep inside a message; a pair as a channel.
    let key = made(&[0], &[[0, 0, 0], [1, 0, 0], [2, 0, 1], [1, 2, 0]], &[[3, 3, 0, 0, 0]]);
    let channel = made(&[0], &[[0, 0, 0], [1, 0, 0]], &[[0, 1, 0, 0, 0]]);
    // What is inside a ciphertext is split, and, decrypted once more, is a channel.
    let inside = made(
        &[0, 0, 1, 1, 1, 1, 1],
        &[[0, 0, 0], [0, 1, 0], [0, 2, 0], [0, 3, 0], [0, 6, 0]],
        &[
            [1, 0, 0, 2, 0],
            [5, 2, 1, 3, 0],
            [4, 3, 0, 4, 5],
            [5, 2, 1, 6, 0],
            [0, 4, 0, 0, 0],
        ],
    );
    let cases = [
        of_table(&file("e5.spt")),
        of_table(&file("e6.spt")),
        of_table(&parts),
        of_table(&key),
        of_table(&channel),
        of_table(&inside),
    ];
    same(&cases.join("\n"), "clashes.txt");
}

#[test]
fn of_lists() {
    let (table, list) = (file("e1.spt"), || file("e1.spl"));
    let asking = example("incident/asking.spt");
    let mut longer = with(list(), &[(7, 4)]);
    longer.extend([0, 0, 3, 0]);
    let cases = [
        of_list(&table, &list()[..14]),
        of_list(&table, &list()[..27]),
        of_list(&table, &with(list(), &[(13, 6)])),
        of_list(&table, &with(list(), &[(12, 0), (13, 1), (14, 1)])),
        of_list(&table, &file("e11-3.spl")),
        of_list(&table, &with(list(), &[(17, 9)])),
        of_list(&table, &with(list(), &[(9, 3)])),
        of_list(&table, &file("e2.spl")),
        of_list(&table, &file("e11.spl")),
        of_list(&table, &longer),
        of_list(&table, &with(list(), &[(17, 7), (18, 0), (19, 1), (20, 0)])),
        of_list(&asking, &example("incident/asking-firm.spl")),
        of_list(&table, &with(list()[..17].to_vec(), &[(7, 0)])),
        of_list(&file("e12.spt"), &with(file("e12.spl")[..30].to_vec(), &[(7, 3)])),
    ];
    same(&cases.join("\n"), "of-lists.txt");
}

#[test]
fn of_runs() {
    let (table, trace) = (file("e1.spt"), || file("e1.spx"));
    let cases = [
        of_run(&table, &with(trace(), &[(6, 5)]), ENOUGH),
        of_run(&table, &with(trace(), &[(12, 9)]), ENOUGH),
        of_run(&table, &with(trace(), &[(26, 3)]), ENOUGH),
        of_run(&table, &with(trace(), &[(31, 4)]), ENOUGH),
        of_run(&table, &with(trace(), &[(12, 2)]), ENOUGH),
        of_run(&table, &with(trace(), &[(33, 3)]), ENOUGH),
        of_run(&file("e2.spt"), &trace(), ENOUGH),
        of_run(&table, &trace(), [0, 0]),
        of_run(&table, &trace(), [20, 0]),
    ];
    same(&cases.join("\n"), "of-runs.txt");
}

#[test]
fn nothing_is_said_that_the_files_do_not_bear_out() {
    let (table, list) = (file("e1.spt"), file("e1.spl"));
    for number in 1..14 {
        for file in 0..3 {
            assert_eq!(crate::refusal(number, file, 0, &table, Some(&list), None), "");
        }
    }
    assert_eq!(crate::refusal(14, 2, 0, &table, Some(&list), Some(&file("e1.spx"))), "");
    assert_eq!(crate::refusal(16, 0, 0, &table, None, None), "");
    assert_eq!(crate::refusal(12, 1, 6, &table, None, None), "");
}
