//! Traces with one fault each, 1 to 6, and 14: a fine trace, changed.

use second::list::List;
use second::read_trace::read_trace;
use second::run::check_start;
use second::table::Table;

use crate::raw::RawTrace;
use crate::rng::Rng;
use crate::table_faults::{other_version, too_short_or_marked_wrong, wrong_length};

/// The trace, which is a fine one, with this fault; none if there is no occasion for it.
pub fn faulty(rng: &mut Rng, fine: &[u8], table: &Table, list: &List, number: u8) -> Option<Vec<u8>> {
    let mut raw = RawTrace::of(&read_trace(fine).expect("a fine trace"));
    match number {
        1 => Some(too_short_or_marked_wrong(rng, raw.bytes(), 10)),
        2 => Some(other_version(rng, raw.bytes())),
        3 => Some(count_too_large(rng, raw)),
        4 => Some(wrong_length(rng, raw.bytes(), 10)),
        5 => {
            spoil_entry(rng, &mut raw);
            Some(raw.bytes())
        }
        6 => {
            if raw.values.is_empty() {
                raw.values.push([0; 5]);
            }
            let original = rng.below(raw.values.len());
            let at = rng.within(original + 1, raw.values.len());
            let entry = raw.values[original];
            insert_value(&mut raw, at, entry);
            (raw.values.len() <= 1024).then(|| raw.bytes())
        }
        14 => wrong_start(rng, raw, table, list),
        _ => panic!("no such fault of a trace"),
    }
}

/// Inserts a value; parts, starting values and supply move with their places.
fn insert_value(raw: &mut RawTrace, at: usize, entry: [u8; 5]) {
    let moved = |index: u16| if usize::from(index) >= at { index + 1 } else { index };
    for value in &mut raw.values {
        if value[0] != 0 {
            let a = moved(u16::from_be_bytes([value[1], value[2]])).to_be_bytes();
            let b = moved(u16::from_be_bytes([value[3], value[4]])).to_be_bytes();
            *value = [value[0], a[0], a[1], b[0], b[1]];
        }
    }
    for index in raw.starting.iter_mut().chain(&mut raw.supply) {
        *index = moved(*index);
    }
    raw.values.insert(at, entry);
}

/// A count over its limit; the length may fit it or not.
fn count_too_large(rng: &mut Rng, mut raw: RawTrace) -> Vec<u8> {
    let fits = rng.once_in(2);
    let far = rng.once_in(3);
    match rng.below(3) {
        0 => {
            let count = rng.within(1025, if far { 65_535 } else { 1_100 });
            if fits && count < 8_000 {
                raw.values.resize(count, [0; 5]);
            }
            let mut bytes = raw.bytes();
            bytes[5..7].copy_from_slice(&(count as u16).to_be_bytes());
            bytes
        }
        1 => {
            let count = rng.within(129, if far { 65_535 } else { 200 });
            if fits && count < 8_000 {
                raw.supply.resize(count, 0);
            }
            let mut bytes = raw.bytes();
            bytes[7..9].copy_from_slice(&(count as u16).to_be_bytes());
            bytes
        }
        _ => {
            let count = rng.within(97, 255);
            if fits {
                raw.starting.resize(count, 0);
            }
            let mut bytes = raw.bytes();
            bytes[9] = count as u8;
            bytes
        }
    }
}

/// Number 5: an unknown tag, a kind or an index out of range. An entry is added where there is none.
fn spoil_entry(rng: &mut Rng, raw: &mut RawTrace) {
    let count = raw.values.len();
    let highest = rng.pick(&[count, 65_535]);
    let out_of_range = rng.within(count, highest) as u16;
    match rng.below(4) {
        0 if count > 0 => raw.values[rng.below(count)][0] = rng.within(3, 255) as u8,
        1 if count > 0 => {
            let at = rng.below(count);
            let high = rng.within(at, 65_535) as u16;
            let kind = rng.within(3, 65_535) as u16;
            let value = &mut raw.values[at];
            let (field, number) = match value[0] {
                0 => (1, kind),
                _ => (rng.pick(&[1, 3]), high),
            };
            value[field..field + 2].copy_from_slice(&number.to_be_bytes());
        }
        2 if !raw.starting.is_empty() => {
            let at = rng.below(raw.starting.len());
            raw.starting[at] = out_of_range;
        }
        _ if !raw.supply.is_empty() => {
            let at = rng.below(raw.supply.len());
            raw.supply[at] = out_of_range;
        }
        _ => raw.supply.push(out_of_range),
    }
}

/// Number 14: one starting value more or fewer, or another one that lacks its type.
fn wrong_start(rng: &mut Rng, mut raw: RawTrace, table: &Table, list: &List) -> Option<Vec<u8>> {
    if raw.values.is_empty() {
        raw.values.push([0; 5]);
    }
    for _ in 0..6 {
        let mut changed = raw.clone();
        let count = changed.starting.len();
        let other = rng.below(changed.values.len()) as u16;
        match rng.below(6) {
            0 if count < 96 => changed.starting.insert(rng.below(count + 1), other),
            1 if count > 0 => {
                changed.starting.remove(rng.below(count));
            }
            _ if count > 0 => changed.starting[rng.below(count)] = other,
            _ => continue,
        }
        let bytes = changed.bytes();
        let trace = read_trace(&bytes).expect("still a fine trace");
        if check_start(table, list, &trace).is_err() {
            return Some(bytes);
        }
    }
    None
}
