//! Terms and values are graphs: what unfolds to 2^127 nodes and more is written in a bounded length, and at once.

use crate::tests::compiled;

/// A term or value has this many characters at most, and then `..`.
const LONGEST: usize = 200;

/// 128 terms, each but the first the pair of the one before it with itself; the last one is matched with itself.
fn deep_table() -> Vec<u8> {
    let mut table = b"SPT\x00\x01\x01\x80\x01\x00\x00\x00\x00".to_vec();
    for term in 0..127 {
        table.extend([1, term, term]);
    }
    table.extend([3, 127, 127, 0, 0]);
    table
}

fn deep_values(count: u16) -> Vec<u8> {
    let mut values = vec![0, 0, 0, 0, 5];
    for value in 0..count - 1 {
        let [high, low] = value.to_be_bytes();
        values.extend([2, high, low, high, low]);
    }
    values
}

#[test]
fn terms() {
    let words = crate::table(&deep_table());
    let line = words.lines().find(|line| line.starts_with("  127")).expect("term 127");
    assert!(line.starts_with(&format!("  127  {}", "(".repeat(127))));
    assert!(line.ends_with("..") && line.len() <= LONGEST + 10);
    assert!(words.lines().all(|line| line.len() < 5 * LONGEST));
}

#[test]
fn registers() {
    let table = deep_table();
    let list = compiled(&table);
    let words = crate::list(&list, Some(&table));
    assert!(words.lines().all(|line| line.len() < 5 * LONGEST));
    assert!(crate::stopped(&table, &list, 127).contains("compare r127 with r127, that is: compare (((("));
    // The comparison left out, the comparison of something else, one pair too many.
    let mut short = list[..list.len() - 4].to_vec();
    short[7] -= 1;
    assert!(crate::refusal(13, 1, 0, &table, Some(&short), None).contains("due is: compare ((("));
    let mut other = list.clone();
    let at = other.len() - 3;
    other[at] = 0;
    assert!(crate::refusal(12, 1, 127, &table, Some(&other), None).contains("that is: compare s0 with ((("));
    let mut more = list.clone();
    more[7] += 1;
    more.extend([7, 127, 0, 0]);
    assert!(crate::refusal(12, 1, 128, &table, Some(&more), None).contains("it builds a term that is not in the table"));
}

#[test]
fn values() {
    let values = deep_values(1024);
    let mut trace = b"SPX\x00\x01\x04\x00\x00\x01\x01".to_vec();
    trace.extend(&values);
    trace.extend([3, 255, 3, 255]);
    let words = crate::trace(&trace, Some(&deep_table()));
    assert!(words.contains("value 1023  {{{{"));
    assert!(words.lines().all(|line| line.len() < 2 * LONGEST));
    let words = crate::messages(&[0, 3, 255, 3, 255], &values);
    assert!(words.starts_with("sent on 1023: 1023  {{{{") && words.len() < 3 * LONGEST);
    // More values than any run leaves.
    assert_eq!(crate::values(&deep_values(40_000)).lines().count(), 40_001);
}
