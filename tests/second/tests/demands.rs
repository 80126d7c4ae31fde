//! Demand 3 on generated runs, the compiler's lists judged, and a check that the checker itself can say no.

mod common;

use common::{compile, fine, run};
use generate::kind::TraceKind;
use generate::lists::accepted;
use generate::tables::{some_typed, table};
use generate::traces::trace;
use generate::{Rng, TableKind};
use second::demand3;
use second::service::judge;
use second::Answer;

#[test]
fn the_compilers_lists_are_accepted() {
    for kind in TableKind::TYPED {
        for i in 0..200 {
            let table = table(&mut Rng::part(21, i), kind);
            let list = compile(&table).unwrap();
            assert_eq!(fine(judge(&table, &list)), Ok(()), "{kind:?} {i}");
        }
    }
}

#[test]
fn demand_3_holds_on_generated_runs() {
    let mut endings = [0; 8];
    for i in 0..1200 {
        let mut rng = Rng::part(22, i);
        let table = some_typed(&mut rng);
        let list = accepted(&mut rng, &table).unwrap();
        let mut kinds: Vec<TraceKind> = (0..8).map(TraceKind::Ending).collect();
        kinds.extend([TraceKind::Random; 2]);
        for kind in kinds {
            let Some(trace) = trace(&mut rng, &table, &list, kind) else {
                continue;
            };
            let (answer, values, log) = run(&table, &list, &trace);
            assert_eq!(answer[0], 0);
            endings[answer[3] as usize] += 1;
            let checked = demand3::check(&table, &list, &trace, &answer, &values, &log);
            assert_eq!(checked, Ok(()), "{i} {kind:?}");
        }
    }
    println!("runs by ending: {endings:?}");
    assert!(endings.iter().all(|&count| count > 50), "{endings:?}");
}

#[test]
fn wrong_runs_break_demand_3() {
    let mut refused = 0;
    for i in 0..300 {
        let mut rng = Rng::part(23, i);
        let table = some_typed(&mut rng);
        let list = accepted(&mut rng, &table).unwrap();
        let wanted = TraceKind::Ending((i % 8) as u8);
        let Some(trace) = trace(&mut rng, &table, &list, wanted) else {
            continue;
        };
        let (answer, values, log) = run(&table, &list, &trace);
        let check = |answer: &Answer, log: &[u8]| demand3::check(&table, &list, &trace, answer, &values, log);
        // Any other ending, a supply too many, and where it matters a message too few or turned round.
        for ending in (0..9).filter(|&e| e != answer[3]) {
            let mut wrong = answer;
            wrong[3] = ending;
            assert!(check(&wrong, &log).is_err(), "{i}: ending {ending} for {answer:?}");
            refused += 1;
        }
        let mut wrong = answer;
        wrong[5] += 1;
        assert!(check(&wrong, &log).is_err(), "{i}");
        if answer[6] > 0 {
            let mut turned = log.clone();
            turned[0] ^= 1;
            assert!(check(&answer, &turned).is_err(), "{i}");
            if matches!(answer[3], 0 | 1 | 2 | 3 | 6) {
                let mut wrong = answer;
                wrong[6] -= 1;
                assert!(check(&wrong, &log).is_err(), "{i}");
            }
        }
    }
    assert!(refused > 500);
}
