//! Terms and values that unfold to 2^127 nodes and more are answered at once.

mod common;

use std::time::{Duration, Instant};

use common::{compile, fine, run};
use generate::raw::{RawTable, RawTrace};
use second::demand3;
use second::service::judge;

fn quickly<T>(what: impl FnOnce() -> T) -> T {
    let start = Instant::now();
    let result = what();
    assert!(start.elapsed() < Duration::from_secs(2), "took {:?}", start.elapsed());
    result
}

/// A channel c and 127 terms, each of the given code and made of the one before twice; each step uses the top one.
fn tower(steps: Vec<[u8; 5]>, symbols: Vec<u8>) -> RawTable {
    let mut terms = vec![[0, 0, 0]];
    for i in 0..127 {
        terms.push([1, i, i]);
    }
    RawTable { symbols, terms, steps }
}

#[test]
fn a_tower_of_pairs() {
    quickly(|| {
        let table = tower(vec![[0, 0, 127, 0, 0], [3, 127, 126, 0, 0]], vec![0]).bytes();
        let list = compile(&table).unwrap();
        assert_eq!(fine(judge(&table, &list)), Ok(()));
        let trace = RawTrace {
            values: vec![[0, 0, 1, 0, 0]],
            starting: vec![0],
            supply: vec![],
        }
        .bytes();
        let (answer, values, log) = run(&table, &list, &trace);
        assert_eq!(answer, [0, 0, 0, 2, 128, 0, 1, 128]);
        assert_eq!(demand3::check(&table, &list, &trace, &answer, &values, &log), Ok(()));
    });
}

#[test]
fn a_tower_taken_apart() {
    // The top is split into x1 and x2, x1 into x3 and x4, and so on: the walks go along the types.
    quickly(|| {
        let mut raw = tower(vec![[4, 127, 0, 1, 2]], [vec![0], vec![1; 94]].concat());
        raw.terms.remove(126);
        raw.terms[126] = [1, 125, 125];
        raw.steps[0][1] = 126;
        raw.terms.push([0, 1, 0]);
        raw.steps.push([4, 127, 0, 3, 4]);
        let table = raw.bytes();
        let list = compile(&table).unwrap();
        assert_eq!(fine(judge(&table, &list)), Ok(()));
        let trace = RawTrace {
            values: vec![[0, 0, 1, 0, 0]],
            starting: vec![0; 91],
            supply: vec![],
        }
        .bytes();
        let (answer, values, log) = run(&table, &list, &trace);
        assert_eq!(answer[..4], [0, 0, 0, 0]);
        assert_eq!(demand3::check(&table, &list, &trace, &answer, &values, &log), Ok(()));
    });
}

#[test]
fn a_tower_used_by_every_step() {
    quickly(|| {
        let table = tower(vec![[3, 127, 127, 0, 0]; 64], vec![1]).bytes();
        let list = compile(&table).unwrap();
        assert_eq!(fine(judge(&table, &list)), Ok(()));
    });
}

#[test]
fn a_tower_in_the_trace() {
    // 1,024 values, each a pair of the one before twice; the last one is received and compared with itself.
    quickly(|| {
        let table = RawTable {
            symbols: vec![0, 1],
            terms: vec![[0, 0, 0], [0, 1, 0]],
            steps: vec![[1, 0, 0, 1, 0], [3, 1, 1, 0, 0]],
        }
        .bytes();
        let list = compile(&table).unwrap();
        let mut values = vec![[0, 0, 1, 0, 0]];
        for i in 0..1023_u16 {
            let part = i.to_be_bytes();
            values.push([1, part[0], part[1], part[0], part[1]]);
        }
        let trace = RawTrace {
            values,
            starting: vec![0],
            supply: vec![1023],
        }
        .bytes();
        let (answer, values, log) = run(&table, &list, &trace);
        assert_eq!(answer, [0, 0, 0, 0, 2, 1, 1, 1024]);
        assert_eq!(demand3::check(&table, &list, &trace, &answer, &values, &log), Ok(()));
    });
}
