//! Damage to a file: bits flipped, bytes cut, added, changed or moved, and bytes that were never a file.

use crate::kind::Damage;
use crate::rng::Rng;

/// The longest file that is made of random bytes.
pub const LONGEST: usize = 40_000;

pub fn damage(rng: &mut Rng, how: Damage, file: &[u8]) -> Vec<u8> {
    let mut out = file.to_vec();
    let few = rng.within(1, 4);
    match how {
        Damage::BitsFlipped => {
            for _ in 0..few {
                if let Some(at) = some_place(rng, &out) {
                    out[at] ^= 1 << rng.below(8);
                }
            }
        }
        Damage::BytesChanged => {
            for _ in 0..few {
                if let Some(at) = some_place(rng, &out) {
                    out[at] = small_or_any(rng);
                }
            }
        }
        Damage::BytesCut => {
            let length = rng.within(1, few * few);
            let start = rng.below(out.len() + 1);
            let end = out.len().min(start + length);
            out.drain(start..end);
        }
        Damage::BytesAdded => {
            for _ in 0..few {
                let at = rng.below(out.len() + 1);
                out.insert(at, small_or_any(rng));
            }
        }
        Damage::BytesMoved => {
            if let (Some(i), Some(j)) = (some_place(rng, &out), some_place(rng, &out)) {
                out.swap(i, j);
            }
        }
        Damage::RandomAfterMark => {
            out.truncate(5);
            let length = some_length(rng);
            out.extend(rng.bytes(length));
            for byte in out.iter_mut().skip(5) {
                if rng.once_in(4) {
                    *byte %= 4;
                }
            }
        }
        Damage::RandomBytes => {
            let length = some_length(rng);
            out = rng.bytes(length);
        }
    }
    out
}

fn some_place(rng: &mut Rng, bytes: &[u8]) -> Option<usize> {
    // The header decides most, so one place in four lies there.
    if bytes.is_empty() {
        None
    } else if rng.once_in(4) {
        Some(rng.below(bytes.len().min(10)))
    } else {
        Some(rng.below(bytes.len()))
    }
}

fn small_or_any(rng: &mut Rng) -> u8 {
    match rng.below(8) {
        0 => 255,
        1..=4 => rng.below(10) as u8,
        _ => rng.byte(),
    }
}

/// Short ones mostly, and now and then any length up to the longest.
fn some_length(rng: &mut Rng) -> usize {
    let longest = rng.pick(&[12, 40, 300, 3_000, LONGEST]);
    rng.within(0, longest)
}
