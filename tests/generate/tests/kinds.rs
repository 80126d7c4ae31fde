//! Each kind really gives what it says, and the same seed gives the same bytes.

use generate::damage::{damage, LONGEST};
use generate::kind::{Change, Damage, ListKind, ShelfKind, Sits, TableKind, TraceKind};
use generate::lists::{accepted, list};
use generate::shelves::shelf;
use generate::tables::{some_typed, table};
use generate::traces::trace;
use generate::Rng;
use second::read_list::read_list;
use second::read_table::read_table;
use second::read_trace::read_trace;
use second::service::{check_list, check_table, check_trace, judge, judge_shelf, judged, run, type_table, typed_table};

const TIMES: u64 = 300;

fn ending(table: &[u8], list: &[u8], trace: &[u8]) -> [u64; 8] {
    let (mut values, mut log) = (vec![0; 5 * 1536], vec![0; 5 * 512]);
    run(table, list, trace, &mut values, &mut log)
}

#[test]
fn tables_of_each_kind() {
    for kind in TableKind::all() {
        for i in 0..TIMES {
            let bytes = table(&mut Rng::part(1, i), kind);
            let number = type_table(&bytes, &mut [0; 40_000])[0];
            let expected = if let TableKind::Fault(n) = kind {
                u64::from(n)
            } else {
                0
            };
            assert_eq!(number, expected, "{kind:?} {i}");
            if let Ok((parsed, types)) = typed_table(&bytes) {
                let most = 2 * parsed.steps.len() + 1;
                assert!(types.iter().all(|t| t.bytes().len() <= most), "{kind:?} {i}");
            }
            if kind == TableKind::Full {
                assert_eq!(check_table(&bytes)[3..6], [96, 128, 64]);
            }
        }
    }
}

#[test]
fn large_types_and_shared_terms_occur() {
    let mut longest = 0;
    let mut deepest = 0;
    for i in 0..TIMES {
        let (_, types) = typed_table(&table(&mut Rng::part(2, i), TableKind::LargeType)).unwrap();
        longest = types.iter().map(|t| t.bytes().len()).max().unwrap().max(longest);
        let shared = read_table(&table(&mut Rng::part(2, i), TableKind::Shared)).unwrap();
        deepest = deepest.max(shared.terms.len());
    }
    println!("longest type {longest} bytes, most terms {deepest}");
    assert!(longest > 60, "longest type {longest}");
    assert!(deepest > 120, "most terms {deepest}");
}

#[test]
fn lists_of_each_kind() {
    for kind in ListKind::all() {
        let mut made = 0;
        let mut numbers = [0; 16];
        for i in 0..TIMES {
            let mut rng = Rng::part(3, i);
            let table = some_typed(&mut rng);
            let free = read_table(&table).unwrap().free().len();
            let Some(bytes) = list(&mut rng, &table, kind) else {
                continue;
            };
            made += 1;
            let number = judge(&table, &bytes)[0];
            numbers[number as usize] += 1;
            match kind {
                ListKind::Compiled | ListKind::Faithful => assert_eq!(number, 0, "{kind:?} {i}"),
                ListKind::Unfaithful(Change::TypesChanged) => assert_eq!(number, 11, "{i}"),
                ListKind::Unfaithful(Change::AnotherTable | Change::NearbyTable) => {
                    assert!((11..=13).contains(&number), "{i}");
                }
                ListKind::Unfaithful(_) => assert!((12..=13).contains(&number), "{kind:?} {i}"),
                ListKind::Fault(n) => {
                    assert_eq!(number, u64::from(n), "{kind:?} {i}");
                    assert_eq!(check_list(&bytes, free)[0], u64::from(n));
                }
            }
        }
        println!("{kind:?}: {made} made, numbers {numbers:?}");
        assert!(made > TIMES / 5, "{kind:?}: only {made}");
    }
}

#[test]
fn faithful_lists_are_not_only_the_compilers() {
    let (mut different, mut long) = (0, 0);
    for i in 0..TIMES {
        let mut rng = Rng::part(4, i);
        let table = some_typed(&mut rng);
        let compiled = list(&mut rng, &table, ListKind::Compiled).unwrap();
        let other = list(&mut rng, &table, ListKind::Faithful).unwrap();
        let (parsed, faithful) = judged(&table, &other).unwrap();
        let given = faithful.statements.iter().filter(|s| s.gives_register()).count();
        different += usize::from(compiled != other);
        long += usize::from(parsed.free().len() + given > 256);
        let read = read_list(&compiled, parsed.free().len()).unwrap();
        assert!(read.statements.len() <= faithful.statements.len());
    }
    assert!(
        different > 150 && long > 30,
        "{different} differ, {long} have registers above 255"
    );
}

#[test]
fn shelves_of_each_kind() {
    for kind in ShelfKind::ALL {
        let mut mixed = 0;
        for i in 0..TIMES {
            let mut rng = Rng::part(6, i);
            let table = some_typed(&mut rng);
            let made = shelf(&mut rng, &table, kind);
            let mut verdicts = [0; 4 * 65];
            let answer = judge_shelf(&table, &made.lists, &made.lengths, &mut verdicts);
            let expected = match kind {
                ShelfKind::Of(65) => 3,
                ShelfKind::Of(_) | ShelfKind::EmptyAmong => 0,
                ShelfKind::TooMuch | ShelfKind::TooLittle | ShelfKind::Wrapping => 4,
            };
            assert_eq!(answer[0], expected, "{kind:?} {i}");
            let sum = made
                .lengths
                .iter()
                .fold(0, |sum: u64, &length| sum.wrapping_add(length));
            let wraps = expected == 4 && sum == made.lists.len() as u64;
            assert_eq!(wraps, kind == ShelfKind::Wrapping, "{kind:?} {i}");
            let written = &verdicts[..answer[3] as usize];
            mixed += usize::from(written.chunks(4).any(|four| four != &written[..4]));
        }
        println!("{kind:?}: {mixed} have more than one verdict");
        if let ShelfKind::Of(2..=64) = kind {
            assert!(mixed > 60, "{kind:?}: only {mixed} have more than one verdict");
        }
    }
}

#[test]
fn traces_of_each_kind() {
    for kind in TraceKind::all() {
        let mut made = 0;
        for i in 0..TIMES {
            let mut rng = Rng::part(5, i);
            let table = some_typed(&mut rng);
            let list = accepted(&mut rng, &table).unwrap();
            let Some(bytes) = trace(&mut rng, &table, &list, kind) else {
                continue;
            };
            made += 1;
            let answer = ending(&table, &list, &bytes);
            match kind {
                TraceKind::Random => assert_eq!(answer[0], 0, "{i}"),
                TraceKind::Ending(e) => assert_eq!((answer[0], answer[3]), (0, u64::from(e)), "{i}"),
                TraceKind::Supplied(Sits::InValuesNotHeld) => assert_eq!(answer[0], 0, "{i}"),
                TraceKind::Supplied(_) => assert_eq!((answer[0], answer[3]), (0, 6), "{i}"),
                TraceKind::Fault(n) => assert_eq!(answer[0], u64::from(n), "{i}"),
            }
            if let TraceKind::Fault(n @ 1..=6) = kind {
                assert_eq!(check_trace(&bytes)[0], u64::from(n), "{i}");
            } else {
                assert!(read_trace(&bytes).is_ok());
            }
        }
        println!("{kind:?}: {made} made");
        assert!(made > TIMES / 10, "{kind:?}: only {made}");
    }
}

#[test]
fn damage_of_each_kind() {
    let mut longest = 0;
    for how in Damage::ALL {
        for i in 0..TIMES {
            let mut rng = Rng::part(6, i);
            let table = some_typed(&mut rng);
            let damaged = damage(&mut rng, how, &table);
            longest = longest.max(damaged.len());
            assert!(damaged.len() <= LONGEST + 5);
            // Every reader answers, whatever the bytes.
            check_table(&damaged);
            check_list(&damaged, rng.below(300));
            check_trace(&damaged);
        }
    }
    assert!(longest > 35_000);
}

#[test]
fn the_same_seed_gives_the_same_bytes() {
    for i in 0..50 {
        let make = || {
            let mut rng = Rng::part(7, i);
            let table = some_typed(&mut rng);
            let list = accepted(&mut rng, &table).unwrap();
            let trace = trace(&mut rng, &table, &list, TraceKind::Random);
            (table, list, trace)
        };
        assert_eq!(make(), make());
    }
}
