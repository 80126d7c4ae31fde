//! Tables with no typing, number 10: a typed table with a conflict put into it.

use crate::raw::RawTable;
use crate::rng::Rng;
use crate::tables::with_room;

/// A table with none of the faults 1 to 9 and no typing.
pub fn untyped(rng: &mut Rng) -> RawTable {
    let mut raw = with_room(rng);
    let at = rng.below(raw.steps.len() + 1);
    let later = rng.within(at, raw.steps.len());
    // Later steps first, so that the earlier place stays where it is.
    for (place, entry) in conflict(rng, &mut raw) {
        raw.steps.insert(if place == 0 { at } else { later }, entry);
    }
    raw
}

/// Steps that have no typing together; the first of each pair is 1 for the later place, 0 for the earlier one.
fn conflict(rng: &mut Rng, raw: &mut RawTable) -> Vec<(u8, [u8; 5])> {
    let name = raw.symbol(0);
    let variable = raw.symbol(1);
    let (left, right) = (raw.symbol(1), raw.symbol(1));
    let n = raw.term([0, name, 0]);
    match rng.below(7) {
        // A key sent on itself.
        0 => {
            let x = raw.term([0, variable, 0]);
            vec![(1, [5, x, n, left, 0]), (0, [0, n, n, 0, 0])]
        }
        // A split of a name.
        1 => vec![(0, [4, n, 0, left, right])],
        // A pair as channel.
        2 => {
            let pair = raw.term([1, n, n]);
            vec![(0, [0, pair, n, 0, 0])]
        }
        // A pair as key, deep inside a message.
        3 => {
            let pair = raw.term([1, n, n]);
            let secret = raw.term([2, n, pair]);
            let message = raw.term([1, secret, n]);
            vec![(0, [3, message, n, 0, 0])]
        }
        // A decryption of a pair.
        4 => {
            let pair = raw.term([1, n, n]);
            vec![(0, [5, pair, n, left, 0])]
        }
        // A variable that is split, then used as a channel.
        5 => {
            let x = raw.term([0, variable, 0]);
            vec![(1, [0, x, n, 0, 0]), (0, [4, x, 0, left, right])]
        }
        // The left part of a pair of one name is a channel, the right part a key.
        _ => {
            let pair = raw.term([1, n, n]);
            let (l, r) = (raw.term([0, left, 0]), raw.term([0, right, 0]));
            let secret = raw.term([2, l, r]);
            vec![(1, [0, l, secret, 0, 0]), (0, [4, pair, 0, left, right])]
        }
    }
}
