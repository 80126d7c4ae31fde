//! Traces of a named kind, for a table and an accepted list.

use second::list::{List, Statement, COMPARE, DECRYPT, FRESH, RECEIVE};
use second::service::{judged, run};
use second::table::Table;
use second::trace::{Trace, Value};
use second::types::Type;
use second::Answer;

use crate::kind::{Sits, TraceKind};
use crate::plan::{reach, Goal};
use crate::raw::RawTrace;
use crate::rng::Rng;
use crate::solver::{Ground, Solver};
use crate::trace_faults;

/// A trace of this kind; none if the table and list give no occasion for it, or none was found.
pub fn trace(rng: &mut Rng, table: &[u8], list: &[u8], kind: TraceKind) -> Option<Vec<u8>> {
    let (parsed, judged_list) = judged(table, list).ok()?;
    match kind {
        TraceKind::Random => Some(random(rng, &parsed, &judged_list)),
        TraceKind::Ending(ending) => {
            let places = places_of(&judged_list, ending);
            let wanted = |_, answer: &Answer| answer[3] == u64::from(ending);
            tried(rng, table, list, &places, wanted, |rng, at| {
                reach(rng, &parsed, &judged_list, at, Goal::Ending(ending))
            })
        }
        TraceKind::Supplied(sits) => {
            let places = places_of(&judged_list, 6);
            // The run ends with 6 just there; where the atom is fresh it goes past it.
            let fresh = sits == Sits::InValuesNotHeld;
            let wanted = |at, answer: &Answer| {
                let refused = answer[3] == 6 && answer[4] == at as u64;
                answer[4] >= at as u64 && refused != fresh
            };
            tried(rng, table, list, &places, wanted, |rng, at| {
                reach(rng, &parsed, &judged_list, at, Goal::Supplied(sits))
            })
        }
        TraceKind::Fault(number) => {
            let fine = random(rng, &parsed, &judged_list);
            trace_faults::faulty(rng, &fine, &parsed, &judged_list, number)
        }
    }
}

/// A trace that is made for one of these statements and on which the run is as wanted, if one is found.
fn tried(
    rng: &mut Rng,
    table: &[u8],
    list: &[u8],
    places: &[usize],
    wanted: impl Fn(usize, &Answer) -> bool,
    make: impl Fn(&mut Rng, usize) -> Option<Trace>,
) -> Option<Vec<u8>> {
    for _ in 0..6 {
        let at = rng.pick_any(places)?;
        if let Some(made) = make(rng, at) {
            let bytes = RawTrace::of(&made).bytes();
            let (mut values, mut log) = (vec![0; 5 * 1536], vec![0; 5 * 512]);
            let answer = run(table, list, &bytes, &mut values, &mut log);
            if answer[0] == 0 && wanted(at, &answer) {
                return Some(bytes);
            }
        }
    }
    None
}

/// The statements at which a run can have this ending.
fn places_of(list: &List, ending: u8) -> Vec<usize> {
    let ops: &[u8] = match ending {
        0 => return vec![list.statements.len()],
        1 => &[RECEIVE, FRESH],
        2 => &[COMPARE],
        3 | 5 => &[DECRYPT],
        4 => &[RECEIVE],
        _ => &[FRESH],
    };
    let fits = |s: &Statement| match ending {
        4 | 5 => list.types[s.s] != Type::Message,
        7 => list.types[s.s] != Type::Name,
        _ => true,
    };
    (0..list.statements.len())
        .filter(|&i| ops.contains(&list.statements[i].op) && fits(&list.statements[i]))
        .collect()
}

/// Random values; the starting values have their types, so that a run begins.
fn random(rng: &mut Rng, table: &Table, list: &List) -> Vec<u8> {
    let mut solver = Solver::default();
    let mut ground = Ground::default();
    let start = |s: &usize| solver.unknown(&list.types[*s]);
    let nodes: Vec<usize> = table.free().iter().map(start).collect();
    let mut starting = Vec::new();
    for node in nodes {
        starting.push(solver.ground(rng, node, &mut ground).expect("no value holds itself"));
    }
    let most = rng.pick(&[4, 20, 20, 200, 900]);
    for _ in 0..rng.below(most) {
        let count = ground.values.len();
        let value = match rng.below(4) {
            1 if count > 0 => Value::Pair(rng.below(count), rng.below(count)),
            2 if count > 0 => Value::Encrypted(rng.below(count), rng.below(count)),
            _ => Value::Atom {
                kind: rng.below(3),
                number: rng.below(20),
            },
        };
        ground.place(value);
    }
    let count = ground.values.len();
    let length = if count == 0 { 0 } else { rng.pick(&[0, 3, 20, 128]) };
    let supply = (0..length).map(|_| rng.below(count)).collect();
    RawTrace::of(&Trace {
        values: ground.values,
        starting,
        supply,
    })
    .bytes()
}
