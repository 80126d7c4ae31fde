//! Tables with one fault each, 1 to 9: a typed table, changed.

use crate::raw::{symbol_fields, term_fields, RawTable};
use crate::rng::Rng;
use crate::tables::with_room;

pub fn faulty(rng: &mut Rng, number: u8) -> Vec<u8> {
    let mut raw = with_room(rng);
    match number {
        1 => too_short_or_marked_wrong(rng, raw.bytes(), 8),
        2 => other_version(rng, raw.bytes()),
        3 => count_too_large(rng, raw),
        4 => wrong_length(rng, raw.bytes(), 8),
        5 => loop {
            let mut changed = raw.clone();
            if spoil_entry(rng, &mut changed) {
                return changed.bytes();
            }
        },
        6 => {
            let original = rng.below(raw.terms.len());
            let at = rng.within(original + 1, raw.terms.len());
            raw.insert_term(at, raw.terms[original]);
            let t = at as u8;
            insert_step(rng, &mut raw, [3, t, t, 0, 0]);
            raw.bytes()
        }
        7 => idle_term(rng, raw).bytes(),
        8 => bound_again(rng, raw).bytes(),
        9 => used_early(rng, raw).bytes(),
        _ => panic!("no such fault of a table"),
    }
}

/// Number 1 of any file: fewer bytes than the header, or another mark.
pub fn too_short_or_marked_wrong(rng: &mut Rng, mut bytes: Vec<u8>, header: usize) -> Vec<u8> {
    if rng.once_in(2) {
        bytes.truncate(rng.below(header));
    } else {
        bytes[rng.below(3)] ^= rng.within(1, 255) as u8;
    }
    bytes
}

/// Number 2 of any file.
pub fn other_version(rng: &mut Rng, mut bytes: Vec<u8>) -> Vec<u8> {
    bytes[3 + rng.below(2)] ^= rng.within(1, 255) as u8;
    bytes
}

/// Number 4 of any file: bytes cut from the end or added there.
pub fn wrong_length(rng: &mut Rng, mut bytes: Vec<u8>, header: usize) -> Vec<u8> {
    if rng.once_in(2) && bytes.len() > header {
        bytes.truncate(rng.within(header, bytes.len() - 1));
    } else {
        let length = rng.within(1, 9);
        bytes.extend(rng.bytes(length));
    }
    bytes
}

/// A count over its limit; the length may fit it or not.
fn count_too_large(rng: &mut Rng, mut raw: RawTable) -> Vec<u8> {
    let which = rng.below(3);
    let count = rng.within([97, 129, 65][which], 255);
    if rng.once_in(2) {
        match which {
            0 => raw.symbols.resize(count, 0),
            1 => raw.terms.resize(count, [0; 3]),
            _ => raw.steps.resize(count, [0; 5]),
        }
    }
    let mut bytes = raw.bytes();
    bytes[5 + which] = count as u8;
    bytes
}

/// Number 5: one entry spoilt; false if the way that was picked doesn't apply.
fn spoil_entry(rng: &mut Rng, raw: &mut RawTable) -> bool {
    let (symbols, terms) = (raw.symbols.len(), raw.terms.len());
    let s = rng.below(symbols);
    let t = rng.below(terms);
    let p = rng.below(raw.steps.len());
    let op = raw.steps[p][0];
    let (a, b) = term_fields(op);
    let (x, y) = symbol_fields(op);
    let used = [true, a, b, x, y];
    let field = rng.within(1, 4);
    match rng.below(9) {
        0 => raw.symbols[s] = rng.within(2, 255) as u8,
        1 => raw.terms[t][0] = rng.within(3, 255) as u8,
        2 if raw.terms[t][0] == 0 => raw.terms[t][2] = rng.within(1, 255) as u8,
        3 if raw.terms[t][0] == 0 => raw.terms[t][1] = rng.within(symbols, 255) as u8,
        4 if raw.terms[t][0] != 0 => raw.terms[t][rng.within(1, 2)] = rng.within(t, 255) as u8,
        5 => raw.steps[p][0] = rng.within(6, 255) as u8,
        6 if !used[field] => raw.steps[p][field] = rng.within(1, 255) as u8,
        7 if used[field] => {
            let limit = if field <= 2 { terms } else { symbols };
            raw.steps[p][field] = rng.within(limit, 255) as u8;
        }
        8 if used[field] && field > 2 => {
            let sort = raw.symbols[usize::from(raw.steps[p][field])];
            let others: Vec<usize> = (0..symbols).filter(|&s| raw.symbols[s] != sort).collect();
            match rng.pick_any(&others) {
                Some(other) => raw.steps[p][field] = other as u8,
                None => return false,
            }
        }
        _ => return false,
    }
    true
}

fn insert_step(rng: &mut Rng, raw: &mut RawTable, entry: [u8; 5]) {
    let at = rng.below(raw.steps.len() + 1);
    raw.steps.insert(at, entry);
}

/// Number 7: a term that nothing names.
fn idle_term(rng: &mut Rng, mut raw: RawTable) -> RawTable {
    let at = rng.within(1, raw.terms.len());
    let entry = loop {
        let entry = if rng.once_in(4) {
            [0, raw.symbol(0), 0]
        } else {
            [rng.within(1, 2) as u8, rng.below(at) as u8, rng.below(at) as u8]
        };
        if !raw.terms.contains(&entry) {
            break entry;
        }
    };
    raw.insert_term(at, entry);
    raw
}

/// Number 8: a symbol bound again, or a split that binds one symbol twice.
fn bound_again(rng: &mut Rng, mut raw: RawTable) -> RawTable {
    let t = rng.below(raw.terms.len()) as u8;
    let bound: Vec<(usize, u8)> = (0..raw.steps.len())
        .flat_map(|i| raw.binds(i).into_iter().map(move |s| (i, s)))
        .collect();
    match rng.pick_any(&bound) {
        Some((step, s)) if !rng.once_in(4) => {
            let again = if raw.symbols[usize::from(s)] == 0 {
                [2, 0, 0, s, 0]
            } else {
                [1, t, 0, s, 0]
            };
            let at = rng.within(step + 1, raw.steps.len());
            raw.steps.insert(at, again);
        }
        _ => {
            let s = raw.symbol(1);
            insert_step(rng, &mut raw, [4, t, 0, s, s]);
        }
    }
    raw
}

/// Number 9: a term that holds a symbol bound in the step itself or later.
fn used_early(rng: &mut Rng, mut raw: RawTable) -> RawTable {
    let x = raw.symbol(1);
    let mut t = raw.term([0, x, 0]);
    for _ in 0..rng.below(4) {
        let other = rng.below(raw.terms.len()) as u8;
        t = raw.term([1, t, other]);
    }
    let at = rng.below(raw.steps.len() + 1);
    let other = rng.below(raw.terms.len()) as u8;
    match rng.below(4) {
        0 => raw.steps.insert(at, [1, t, 0, x, 0]),
        1 => raw.steps.insert(at, [5, t, other, x, 0]),
        2 => {
            let y = raw.symbol(1);
            raw.steps.insert(at, [4, t, 0, y, x]);
        }
        _ => {
            let binding = rng.within(at, raw.steps.len());
            raw.steps.insert(binding, [1, other, 0, x, 0]);
            raw.steps.insert(at, [3, other, t, 0, 0]);
        }
    }
    raw
}
