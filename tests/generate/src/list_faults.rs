//! Lists with one fault each, 1 to 5: an accepted list, changed.

use second::read_list::read_list;

use crate::raw::{statement_fields, RawList};
use crate::rng::Rng;
use crate::table_faults::{other_version, too_short_or_marked_wrong, wrong_length};

/// The list, which is a fine one for so many free symbols, with this fault.
pub fn faulty(rng: &mut Rng, fine: &[u8], free: usize, number: u8) -> Vec<u8> {
    let mut raw = RawList::of(&read_list(fine, free).expect("a fine list"));
    match number {
        1 => too_short_or_marked_wrong(rng, raw.bytes(), 8),
        2 => other_version(rng, raw.bytes()),
        3 => count_too_large(rng, raw),
        4 => loop {
            let bytes = wrong_length_somewhere(rng, &raw);
            if read_list(&bytes, free).is_err_and(|r| r.number == 4) {
                return bytes;
            }
        },
        5 => {
            if raw.types.is_empty() && raw.statements.is_empty() {
                raw.types.push(vec![]);
                return raw.bytes();
            }
            loop {
                let mut changed = raw.clone();
                if spoil_entry(rng, &mut changed, free) {
                    return changed.bytes();
                }
            }
        }
        _ => panic!("no such fault of a list"),
    }
}

/// A count over its limit; the length may fit it or not.
fn count_too_large(rng: &mut Rng, mut raw: RawList) -> Vec<u8> {
    let fits = rng.once_in(2);
    if rng.once_in(2) {
        let count = rng.within(97, 255);
        if fits {
            raw.types.resize(count, vec![0]);
        }
        let mut bytes = raw.bytes();
        bytes[5] = count as u8;
        bytes
    } else {
        let longest = rng.pick(&[513, 600, 65_535]);
        let count = rng.within(513, longest);
        if fits && count < 9_000 {
            raw.statements.resize(count, [2, 0, 0, 0]);
        }
        let mut bytes = raw.bytes();
        bytes[6..8].copy_from_slice(&(count as u16).to_be_bytes());
        bytes
    }
}

/// Bytes cut or added, a count changed within its limit, or a length byte that leads elsewhere.
fn wrong_length_somewhere(rng: &mut Rng, raw: &RawList) -> Vec<u8> {
    let mut bytes = raw.bytes();
    match rng.below(4) {
        0 => bytes[5] = rng.below(97) as u8,
        1 => {
            let count = rng.below(513) as u16;
            bytes[6..8].copy_from_slice(&count.to_be_bytes());
        }
        2 if bytes.len() > 8 => bytes[8] = rng.byte(),
        _ => bytes = wrong_length(rng, bytes, 8),
    }
    bytes
}

/// Number 5: one entry spoilt; false if the way that was picked doesn't apply.
fn spoil_entry(rng: &mut Rng, raw: &mut RawList, free: usize) -> bool {
    if !raw.types.is_empty() && (raw.statements.is_empty() || rng.once_in(3)) {
        let at = rng.below(raw.types.len());
        spoil_type(rng, &mut raw.types[at]);
        return true;
    }
    if raw.statements.is_empty() {
        return false;
    }
    let at = rng.below(raw.statements.len());
    let registers = raw.registers_before(free, at);
    let symbols = raw.types.len();
    let (p, q, s) = statement_fields(raw.statements[at][0]);
    let field = rng.within(1, 3);
    let used = [true, p, q, s][field];
    let limit = if field == 3 { symbols } else { registers };
    let entry = &mut raw.statements[at];
    match rng.below(3) {
        0 => entry[0] = rng.within(9, 255) as u8,
        1 if !used => entry[field] = rng.within(1, 255) as u8,
        2 if used && limit < 256 => {
            let highest = rng.pick(&[limit, 255]);
            entry[field] = rng.within(limit, highest) as u8;
        }
        _ => return false,
    }
    true
}

/// Bytes that aren't exactly one type: none, an unknown code, one too many or one too few.
fn spoil_type(rng: &mut Rng, bytes: &mut Vec<u8>) {
    let at = rng.below(bytes.len());
    match rng.below(5) {
        0 => bytes.clear(),
        1 => bytes[at] = rng.within(6, 255) as u8,
        2 if bytes.len() < 255 => bytes.push(rng.below(6) as u8),
        3 => {
            bytes.pop();
        }
        _ => *bytes = vec![4; rng.within(1, 255)],
    }
}
