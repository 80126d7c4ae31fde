//! Shelves of a named kind, for a typed table: lists laid end to end, and their lengths.

use crate::damage::damage;
use crate::kind::{Damage, ListKind, ShelfKind};
use crate::lists::{accepted, list};
use crate::rng::Rng;

#[derive(Clone, PartialEq, Eq, Debug)]
pub struct Shelf {
    pub lists: Vec<u8>,
    pub lengths: Vec<u64>,
}

/// A shelf of this kind for the table, which is a typed one.
pub fn shelf(rng: &mut Rng, table: &[u8], kind: ShelfKind) -> Shelf {
    let lists = several(rng, table);
    match kind {
        ShelfKind::Of(count) => laid(rng, &lists, count),
        ShelfKind::EmptyAmong => {
            let count = rng.within(1, 8);
            let mut shelf = laid(rng, &lists, count);
            shelf.lengths.insert(rng.below(count + 1), 0);
            shelf
        }
        ShelfKind::TooMuch => {
            let count = rng.within(1, 64);
            let mut shelf = laid(rng, &lists, count);
            shelf.lengths[rng.below(count)] += rng.pick(&[1, 4, 1 << 16, 1 << 32, 1 << 63]);
            shelf
        }
        ShelfKind::TooLittle => {
            let count = rng.within(0, 63);
            let mut shelf = laid(rng, &lists, count);
            let further = rng.within(1, 30);
            shelf.lists.extend(rng.bytes(further));
            shelf
        }
        ShelfKind::Wrapping => {
            let count = rng.within(2, 64);
            let mut shelf = laid(rng, &lists, count);
            wrap(rng, &mut shelf.lengths);
            shelf
        }
    }
}

/// A few lists for the table, in order, faithful, faulty or damaged.
fn several(rng: &mut Rng, table: &[u8]) -> Vec<Vec<u8>> {
    let mut made = vec![accepted(rng, table).expect("a typed table")];
    for _ in 0..rng.below(4) {
        let kind = rng.pick(&ListKind::all());
        // Not every table gives occasion for every kind.
        if let Some(bytes) = list(rng, table, kind) {
            let how = rng.pick(&Damage::ALL);
            // Random bytes of any length are what other cases are made of.
            let damaged = rng.once_in(4) && how != Damage::RandomBytes;
            made.push(if damaged { damage(rng, how, &bytes) } else { bytes });
        }
    }
    made
}

/// So many of these lists, each as often as it comes, laid end to end.
fn laid(rng: &mut Rng, lists: &[Vec<u8>], count: usize) -> Shelf {
    let picked: Vec<&Vec<u8>> = (0..count).map(|_| &lists[rng.below(lists.len())]).collect();
    Shelf {
        lists: picked.iter().flat_map(|bytes| bytes.iter().copied()).collect(),
        lengths: picked.iter().map(|bytes| bytes.len() as u64).collect(),
    }
}

/// Makes one of the lengths longer and another one that much shorter, past 0: the sum, taken modulo 2^64, stays.
fn wrap(rng: &mut Rng, lengths: &mut [u64]) {
    let longer = rng.below(lengths.len());
    let shorter = (longer + rng.within(1, lengths.len() - 1)) % lengths.len();
    let more = lengths[shorter] + rng.pick(&[1, 7, 1 << 32, 1 << 63]);
    lengths[longer] += more;
    lengths[shorter] = lengths[shorter].wrapping_sub(more);
}
