//! Numbers and places where they are easily mistaken: the least fault, entries' offsets, 11 to 15, and untouched bytes.

mod common;

use common::{compile, fine, hex};
use second::service::{check_list, check_table, check_trace, judge, run, type_of, type_table};

fn table(body: &str) -> Result<(), (u64, u64, u64)> {
    fine(check_table(&hex(&format!("53 50 54 00 01 {body}"))))
}

fn list(body: &str, free: usize) -> Result<(), (u64, u64, u64)> {
    fine(check_list(&hex(&format!("53 50 4C 00 01 {body}")), free))
}

fn trace(body: &str) -> Result<(), (u64, u64, u64)> {
    fine(check_trace(&hex(&format!("53 50 58 00 01 {body}"))))
}

#[test]
fn tables() {
    // A count before the length; the version before both.
    assert_eq!(table("61 00 00"), Err((3, 0, 0)));
    assert_eq!(fine(check_table(&hex("53 50 54 00 02 61 00 00"))), Err((2, 0, 0)));
    assert_eq!(table("01 00 00"), Err((4, 0, 0)));
    // Offsets: a symbol, a term (unused field, part not lower), a step (unused field, wrong sort).
    assert_eq!(table("02 00 00 | 00 02"), Err((5, 0, 9)));
    assert_eq!(table("01 01 00 | 00 | 00 00 01"), Err((5, 0, 9)));
    assert_eq!(table("01 02 00 | 00 | 00 00 00 01 01 00"), Err((5, 0, 12)));
    assert_eq!(table("01 01 01 | 00 | 00 00 00 | 02 00 00 00 01"), Err((5, 0, 12)));
    assert_eq!(table("01 01 01 | 00 | 00 00 00 | 01 00 00 00 00"), Err((5, 0, 12)));
    // An equal term before an idle one; a chain of idle terms shows at its top.
    assert_eq!(table("02 03 00 | 00 00 | 00 01 00 00 00 00 00 00 00"), Err((6, 0, 2)));
    assert_eq!(table("01 02 00 | 00 | 00 00 00 01 00 00"), Err((7, 0, 1)));
    // The lowest place of a number: two idle terms, two equal ones, two faulty symbols, two second bindings, two early uses.
    assert_eq!(table("01 03 00 | 00 | 00 00 00 01 00 00 02 00 00"), Err((7, 0, 1)));
    assert_eq!(table("01 03 00 | 00 | 00 00 00 00 00 00 00 00 00"), Err((6, 0, 1)));
    assert_eq!(table("03 00 00 | 00 09 02"), Err((5, 0, 9)));
    let twice = "01 00 00 00 00";
    assert_eq!(
        table(&format!("01 01 03 | 01 | 00 00 00 | {twice} {twice} {twice}")),
        Err((8, 0, 1))
    );
    assert_eq!(
        table(&format!(
            "01 01 03 | 01 | 00 00 00 | 03 00 00 00 00 03 00 00 00 00 {twice}"
        )),
        Err((9, 0, 0))
    );
    // A zero in an unused field names nothing.
    assert_eq!(table("02 01 01 | 00 00 | 00 01 00 | 02 00 00 00 00"), Err((7, 0, 0)));
    // 8 at step 1 before 9 at step 0.
    let body = "01 01 02 | 01 | 00 00 00 | 01 00 00 00 00 01 00 00 00 00";
    assert_eq!(table(body), Err((8, 0, 1)));
    // 9 by a symbol bound later, inside a pair.
    let body = "02 03 02 | 00 01 | 00 00 00 00 01 00 01 00 01 | 03 02 02 00 00 01 00 00 01 00";
    assert_eq!(table(body), Err((9, 0, 0)));
}

#[test]
fn lists() {
    assert_eq!(list("61 00 00", 0), Err((3, 1, 0)));
    assert_eq!(list("00 02 01", 0), Err((3, 1, 0)));
    assert_eq!(list("01 00 00", 0), Err((4, 1, 0)));
    assert_eq!(list("01 00 00 | 02 00", 0), Err((4, 1, 0)));
    assert_eq!(list("01 00 00 | 01 00 00", 0), Err((4, 1, 0)));
    // No bytes, two types, half a type: at the length byte.
    assert_eq!(list("01 00 00 | 00", 0), Err((5, 1, 8)));
    assert_eq!(list("02 00 00 | 01 00 02 00 00", 0), Err((5, 1, 10)));
    assert_eq!(list("02 00 00 | 01 00 02 04 00", 0), Err((5, 1, 10)));
    assert_eq!(list("01 00 00 | 01 06", 0), Err((5, 1, 8)));
    // A statement can't name the register that it gives; any number of free symbols is fine.
    assert_eq!(list("00 00 01 | 07 00 00 00", 0), Err((5, 1, 8)));
    assert_eq!(list("00 00 02 | 07 00 00 00 07 01 01 00", 1), Ok(()));
    assert_eq!(list("00 00 02 | 07 FF 00 00 07 01 FF 00", usize::MAX), Ok(()));
    assert_eq!(list("00 00 01 | 07 00 00 01", 1), Err((5, 1, 8)));
    assert_eq!(list("00 00 01 | 02 00 00 00", 0), Err((5, 1, 8)));
    assert_eq!(list("00 00 01 | 09 00 00 00", 1), Err((5, 1, 8)));
}

#[test]
fn traces() {
    assert_eq!(trace("04 01 00 00 00"), Err((3, 2, 0)));
    assert_eq!(trace("00 00 00 81 00"), Err((3, 2, 0)));
    assert_eq!(trace("00 00 00 00 61"), Err((3, 2, 0)));
    assert_eq!(trace("00 00 00 00"), Err((1, 2, 0)));
    assert_eq!(trace("00 00 00 01 00"), Err((4, 2, 0)));
    assert_eq!(trace("00 01 00 00 00 | 00 00 03 00 00"), Err((5, 2, 10)));
    assert_eq!(trace("00 01 00 00 00 | 01 00 00 00 00"), Err((5, 2, 10)));
    // Starting values stand before the supply.
    assert_eq!(
        trace("00 01 00 01 01 | 00 00 00 00 00 | 00 01 | 00 01"),
        Err((5, 2, 15))
    );
    assert_eq!(
        trace("00 01 00 01 01 | 00 00 00 00 00 | 00 00 | 00 01"),
        Err((5, 2, 17))
    );
    assert_eq!(
        trace("00 02 00 01 00 | 00 00 00 00 00 00 00 00 00 00 | 00 02"),
        Err((5, 2, 20))
    );
    assert_eq!(trace("00 02 00 00 00 | 00 00 00 00 00 00 00 00 00 00"), Err((6, 2, 1)));
    assert_eq!(
        trace("00 03 00 00 00 | 00 00 00 00 00 00 00 00 00 00 00 00 00 00 00"),
        Err((6, 2, 1))
    );
    // Equal numbers of different kinds differ; indexes may repeat.
    assert_eq!(
        trace("00 02 00 02 01 | 00 00 00 00 00 00 00 01 00 00 | 00 00 | 00 01 00 01"),
        Ok(())
    );
}

/// A free name c; c sent on c, twice; then a match of (c, c) with c.
const TABLE: &str = "53 50 54 00 01 01 02 03 | 00 | 00 00 00 01 00 00 | 00 00 00 00 00 00 00 00 00 00 03 01 00 00 00";

#[test]
fn judging() {
    let judged = |body: &str| fine(judge(&hex(TABLE), &hex(&format!("53 50 4C 00 01 {body}"))));
    // Send, send, pair, compare.
    let all = "01 00 04 | 01 02 | 00 00 00 00 00 00 00 00 07 00 00 00 03 01 00 00";
    assert_eq!(judged(all), Ok(()));
    // Another type; one type fewer, one more; a symbol out of the list's own S comes first.
    assert_eq!(judged(&all.replace("01 02", "01 01")), Err((11, 1, 0)));
    assert_eq!(judged("00 00 00"), Err((11, 1, 0)));
    assert_eq!(judged("02 00 00 | 01 02 01 00"), Err((11, 1, 1)));
    assert_eq!(judged("01 00 01 | 01 01 | 02 00 00 01"), Err((5, 1, 10)));
    // Too few: the first unfinished step. Operands swapped, one too many, a build that isn't in the table.
    assert_eq!(judged("01 00 01 | 01 02 | 00 00 00 00"), Err((13, 1, 1)));
    assert_eq!(judged(&all.replace("03 01 00", "03 00 01")), Err((12, 1, 3)));
    let more = format!("{all} 00 00 00 00").replace("01 00 04", "01 00 05");
    assert_eq!(judged(&more), Err((12, 1, 4)));
    let more = format!("{all} 07 00 01 00").replace("01 00 04", "01 00 05");
    assert_eq!(judged(&more), Err((12, 1, 4)));
    let more = format!("{all} 07 00 00 00").replace("01 00 04", "01 00 05");
    assert_eq!(judged(&more), Ok(()));
}

#[test]
fn starting_values_and_lent_buffers() {
    let table = hex(TABLE);
    let list = compile(&table).unwrap();
    let run_with = |body: &str, values: usize, log: usize| {
        let (mut values, mut log) = (vec![7; values], vec![7; log]);
        let answer = run(
            &table,
            &list,
            &hex(&format!("53 50 58 00 01 {body}")),
            &mut values,
            &mut log,
        );
        (answer, values, log)
    };
    let fits = "00 01 00 00 01 | 00 0001 0000 | 0000";
    assert_eq!(fine(run_with("00 00 00 00 00", 99, 99).0), Err((14, 2, 0)));
    assert_eq!(
        fine(run_with("00 01 00 00 02 | 00 0001 0000 | 0000 0000", 99, 99).0),
        Err((14, 2, 1))
    );
    assert_eq!(
        fine(run_with("00 01 00 00 01 | 00 0002 0000 | 0000", 99, 99).0),
        Err((14, 2, 0))
    );
    // Ten bytes for values, ten for messages; nothing is written by a refusal, and what is beyond stays.
    assert_eq!(run_with(fits, 9, 0), ([15, 3, 10, 0, 0, 0, 0, 0], vec![7; 9], vec![]));
    assert_eq!(
        run_with(fits, 10, 9),
        ([15, 3, 10, 0, 0, 0, 0, 0], vec![7; 10], vec![7; 9])
    );
    let (answer, values, log) = run_with(fits, 12, 11);
    assert_eq!(answer, [0, 0, 0, 2, 3, 0, 2, 2]);
    assert_eq!(values, hex("00 0001 0000 01 0000 0000 0707"));
    assert_eq!(log, hex("00 0000 0000 00 0000 0000 07"));
    let mut out = vec![7; list.len() - 1];
    let need = list.len() as u64;
    assert_eq!(second::service::compile(&table, &mut out), [15, 3, need, 0, 0, 0, 0, 0]);
    assert_eq!(type_table(&table, &mut out[..1]), [15, 3, 2, 0, 0, 0, 0, 0]);
    assert_eq!(out, vec![7; list.len() - 1]);
}

#[test]
fn the_type_of_a_symbol() {
    let part = |body: &str, symbol: usize| {
        let answer = type_of(&hex(&format!("53 50 4C 00 01 {body}")), symbol);
        assert_eq!(answer[..3], [0, 0, 0]);
        (answer[3], answer[4])
    };
    assert_eq!(part("02 00 00 | 01 02 02 05 00", 0), (9, 1));
    assert_eq!(part("02 00 00 | 01 02 02 05 00", 1), (11, 2));
    assert_eq!(part("02 00 00 | 01 02 02 05 00", 2), (0, 0));
    assert_eq!(part("02 00 00 | 01 02 02 05 00", usize::MAX), (0, 0));
    // Any malformed type empties every part; a faulty statement doesn't.
    assert_eq!(part("02 00 00 | 01 02 02 00 00", 0), (0, 0));
    assert_eq!(part("01 00 01 | 01 02 | FF 00 00 00", 0), (9, 1));
    assert_eq!(part("01 00 01 | 01 02 | FF 00 00", 0), (0, 0));
}
