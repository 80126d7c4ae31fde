//! Lists that are not faithful by one change each. A change that happens to leave a faithful list, or gives a fault 1 to 5,
//! is tried again.

use second::read_list::read_list;
use second::service::{judge, judged, typed_table};

use crate::builder::some_type;
use crate::kind::Change;
use crate::lists::accepted;
use crate::raw::{statement_fields, RawList};
use crate::rng::Rng;
use crate::tables::some_typed;

/// A list with one of 11 to 13, by this change; none if the table has nothing that could be changed so.
pub fn unfaithful(rng: &mut Rng, table: &[u8], change: Change) -> Option<Vec<u8>> {
    let (parsed, _) = typed_table(table).ok()?;
    let free = parsed.free().len();
    for _ in 0..6 {
        let bytes = match change {
            Change::AnotherTable => {
                let other = some_typed(rng);
                accepted(rng, &other)?
            }
            Change::NearbyTable => {
                let other = with_steps_swapped(rng, table, parsed.steps.len());
                match other.and_then(|other| accepted(rng, &other)) {
                    Some(bytes) => bytes,
                    None => continue,
                }
            }
            _ => {
                let mut raw = RawList::of(&judged(table, &accepted(rng, table)?).ok()?.1);
                if !apply(rng, &mut raw, free, change) {
                    continue;
                }
                raw.bytes()
            }
        };
        let readable = read_list(&bytes, free).is_ok();
        if readable && (11..=13).contains(&judge(table, &bytes)[0]) {
            return Some(bytes);
        }
    }
    None
}

/// The table, which has so many steps, with two neighbouring ones swapped; none if there are no two. Steps are its last entries.
fn with_steps_swapped(rng: &mut Rng, table: &[u8], steps: usize) -> Option<Vec<u8>> {
    if steps < 2 {
        return None;
    }
    let first = table.len() - 5 * (steps - rng.below(steps - 1));
    let mut other = table.to_vec();
    other[first..first + 10].rotate_left(5);
    Some(other)
}

/// Changes the list in one place; false if there is no such place.
fn apply(rng: &mut Rng, raw: &mut RawList, free: usize, change: Change) -> bool {
    let of = |wanted: &dyn Fn(u8) -> bool| -> Vec<usize> {
        (0..raw.statements.len())
            .filter(|&i| wanted(raw.statements[i][0]))
            .collect()
    };
    let not_builds = of(&|op| op < 7);
    match change {
        Change::ComparisonDropped => {
            let Some(at) = rng.pick_any(&of(&|op| op == 3)) else {
                return false;
            };
            raw.remove(free, at);
        }
        Change::OperandsSwapped => {
            let both = of(&|op| statement_fields(op).0 && statement_fields(op).1);
            let Some(at) = rng.pick_any(&both) else {
                return false;
            };
            raw.statements[at].swap(1, 2);
        }
        Change::AnotherSymbol => {
            let Some(at) = rng.pick_any(&of(&|op| statement_fields(op).2)) else {
                return false;
            };
            raw.statements[at][3] = rng.below(raw.types.len()) as u8;
        }
        Change::OrderChanged => {
            if not_builds.len() < 2 {
                return false;
            }
            let first = rng.below(not_builds.len() - 1);
            let second = rng.within(first + 1, (first + 3).min(not_builds.len() - 1));
            raw.statements.swap(not_builds[first], not_builds[second]);
        }
        Change::OneTooMany => {
            let Some(at) = rng.pick_any(&not_builds) else {
                return false;
            };
            let to = rng.within(at, raw.statements.len());
            raw.insert(free, to, raw.statements[at]);
        }
        Change::OneTooFew => {
            let Some(at) = rng.pick_any(&not_builds) else {
                return false;
            };
            let at = if rng.once_in(4) {
                not_builds[not_builds.len() - 1]
            } else {
                at
            };
            raw.remove(free, at);
        }
        Change::LeftForRight => {
            let Some(at) = rng.pick_any(&of(&|op| op == 4 || op == 5)) else {
                return false;
            };
            raw.statements[at][0] ^= 1;
        }
        Change::TypesChanged => change_types(rng, raw),
        Change::BuildNotInTable => {
            let at = rng.below(raw.statements.len() + 1);
            let registers = raw.registers_before(free, at).min(256);
            if registers == 0 {
                return false;
            }
            let (p, q) = (rng.below(registers) as u8, rng.below(registers) as u8);
            raw.insert(free, at, [rng.within(7, 8) as u8, p, q, 0]);
        }
        Change::NearbyTable | Change::AnotherTable => return false,
    }
    raw.statements.len() <= 512
}

/// Another type for one symbol, one type more, one fewer, or types as long as a length byte can say for all.
fn change_types(rng: &mut Rng, raw: &mut RawList) {
    let size = rng.within(1, 4);
    let other = some_type(rng, size).bytes();
    match rng.below(8) {
        0 if raw.types.len() < 96 => raw.types.push(other),
        1 if !raw.types.is_empty() => {
            raw.types.pop();
        }
        2 if !raw.types.is_empty() => {
            let size = rng.within(60, 128);
            for one in &mut raw.types {
                *one = some_type(rng, size).bytes();
            }
        }
        _ if !raw.types.is_empty() => {
            let at = rng.below(raw.types.len());
            raw.types[at] = other;
        }
        _ => raw.types.push(other),
    }
}
