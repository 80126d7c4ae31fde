//! Fresh in document 02 c)'s words, by plain recursion, against the search that looks into each value once.

mod common;

use common::{compile, run};
use generate::raw::{RawTable, RawTrace};
use generate::Rng;
use second::demand3;
use second::trace::{occurs_in, Value};

/// The value is the other one, or occurs in a part of it.
fn occurs(values: &[Value], value: usize, other: usize) -> bool {
    value == other || values[other].parts().iter().any(|&part| occurs(values, value, part))
}

#[test]
fn the_search_is_the_definition() {
    let mut found = [0; 2];
    for i in 0..3000 {
        let mut rng = Rng::part(31, i);
        let mut values: Vec<Value> = Vec::new();
        for at in 0..rng.within(1, 14) {
            values.push(match rng.below(3) {
                1 if at > 0 => Value::Pair(rng.below(at), rng.below(at)),
                2 if at > 0 => Value::Encrypted(rng.below(at), rng.below(at)),
                _ => Value::Atom { kind: 0, number: at },
            });
        }
        let value = rng.below(values.len());
        let held: Vec<usize> = (0..rng.below(4)).map(|_| rng.below(values.len())).collect();
        let expected = held.iter().any(|&other| occurs(&values, value, other));
        assert_eq!(occurs_in(&values, value, held.iter().copied()), expected, "{i}");
        found[usize::from(expected)] += 1;
    }
    assert!(found.iter().all(|&count| count > 500), "{found:?}");
}

#[test]
fn an_atom_below_a_thousand_shared_values() {
    // in c x, new n: the last of 1,022 values on top of atom 1 is received, then an atom is supplied. Only atom 2 sits nowhere.
    let table = RawTable {
        symbols: vec![0, 1, 0],
        terms: vec![[0, 0, 0]],
        steps: vec![[1, 0, 0, 1, 0], [2, 0, 0, 2, 0]],
    }
    .bytes();
    let list = compile(&table).unwrap();
    let mut values = vec![[0, 0, 1, 0, 0], [0, 0, 0, 0, 1], [0, 0, 0, 0, 2]];
    values.push([1, 0, 0, 0, 1]);
    for i in 3..1023_u16 {
        let [high, low] = i.to_be_bytes();
        values.push([(1 + i % 2) as u8, high, low, high, low]);
    }
    for (atom, ending) in [(0, 6), (1, 6), (2, 0)] {
        let raw = RawTrace {
            values: values.clone(),
            starting: vec![0],
            supply: vec![1023, atom],
        };
        let trace = raw.bytes();
        let (answer, values, log) = run(&table, &list, &trace);
        assert_eq!((answer[0], answer[3]), (0, ending), "atom {atom}");
        assert_eq!(demand3::check(&table, &list, &trace, &answer, &values, &log), Ok(()));
    }
}
