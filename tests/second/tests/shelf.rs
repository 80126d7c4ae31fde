//! A whole shelf at once: the order of its refusals, exact sums, and each list's verdict.

mod common;

use common::{compile, fine, hex};
use second::service::{judge, judge_shelf};

const BEFORE: u8 = 0xA5;

/// E1's table.
fn table() -> Vec<u8> {
    hex("53 50 54 00 01 04 04 03 | 00 00 01 01 | 00 00 00 00 01 00 00 02 00 00 03 00 | 01 00 00 02 00 05 02 01 03 00 00 00 03 00 00")
}

/// The refusal of a shelf; nothing is written then.
fn refusal(table: &[u8], lists: &[u8], lengths: &[u64], room: usize) -> Result<(), (u64, u64, u64)> {
    let mut verdicts = vec![BEFORE; room];
    let answer = judge_shelf(table, lists, lengths, &mut verdicts);
    if answer[0] != 0 {
        assert_eq!(verdicts, vec![BEFORE; room]);
        assert_eq!(answer[3], 0);
    }
    fine(answer)
}

#[test]
fn refusals_in_order() {
    // The table's comes first, then 3, 4 and 15.
    assert_eq!(refusal(&table()[..7], &[1], &[0; 65], 0), Err((1, 0, 0)));
    assert_eq!(refusal(&table(), &[1], &[0; 65], 0), Err((3, 1, 0)));
    assert_eq!(refusal(&table(), &[1], &[0; 64], 0), Err((4, 1, 0)));
    assert_eq!(refusal(&table(), &[], &[0; 64], 255), Err((15, 3, 256)));
    assert_eq!(refusal(&table(), &[], &[0; 64], 256), Ok(()));
    assert_eq!(refusal(&table(), &[], &[], 0), Ok(()));
    assert_eq!(refusal(&table(), &[1], &[], 0), Err((4, 1, 0)));
}

#[test]
fn sums_are_exact() {
    let seven = [0; 7];
    assert_eq!(refusal(&table(), &seven, &[7], 4), Ok(()));
    assert_eq!(refusal(&table(), &seven, &[6], 4), Err((4, 1, 0)));
    assert_eq!(refusal(&table(), &seven, &[8], 4), Err((4, 1, 0)));
    // 7 and 2^64, and so twice 2^64 - 1 and 9.
    assert_eq!(refusal(&table(), &seven, &[8, u64::MAX], 8), Err((4, 1, 0)));
    assert_eq!(refusal(&table(), &seven, &[u64::MAX, u64::MAX, 9], 12), Err((4, 1, 0)));
}

#[test]
fn verdicts() {
    let list = compile(&table()).expect("E1 is accepted");
    // E11: the list without its decryption, sending a register that is not given; then one that is given but not due.
    let unknown = [&list[..7], &[2], &list[8..21], &hex("00 00 03 00")[..]].concat();
    let not_due = [&list[..7], &[2], &list[8..21], &hex("00 00 02 00")[..]].concat();
    assert_eq!(fine(judge(&table(), &unknown)), Err((5, 1, 21)));
    assert_eq!(fine(judge(&table(), &not_due)), Err((12, 1, 1)));
    let lists = [&list[..], &unknown, &[], &not_due, &list].concat();
    let lengths = [list.len(), unknown.len(), 0, not_due.len(), list.len()].map(|length| length as u64);
    let mut out = [BEFORE; 23];
    let answer = judge_shelf(&table(), &lists, &lengths, &mut out);
    assert_eq!(answer, [0, 0, 0, 20, 0, 0, 0, 0]);
    assert_eq!(
        out[..20],
        hex("00 00 00 00 | 05 01 00 15 | 01 01 00 00 | 0C 01 00 01 | 00 00 00 00")
    );
    assert_eq!(out[20..], [BEFORE; 3]);
}

#[test]
fn a_place_of_two_bytes() {
    // 96 types of 255 bytes, the last of them no type: it stands at 8 + 95 * 256.
    let mut one = vec![255];
    for _ in 0..127 {
        one.extend([4, 0]);
    }
    one.push(0);
    let mut list = hex("53 50 4C 00 01 60 00 00");
    list.extend(one.repeat(96));
    let last = list.len() - 1;
    list[last] = 9;
    let mut out = [BEFORE; 4];
    judge_shelf(&table(), &list, &[list.len() as u64], &mut out);
    assert_eq!(out, [5, 1, 95, 8]);
}
