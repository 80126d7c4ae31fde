//! What is measured: b's role of Otway and Rees as the typical case, and the worst cases that the limits leave. An input that
//! is one service's own stands with the service.

use generate::raw::{RawList, RawTable, RawTrace};

pub const TYPICAL_TABLE: &[u8] = include_bytes!("../../examples/otway-rees/bob.spt");
pub const TYPICAL_LIST: &[u8] = include_bytes!("../../examples/otway-rees/bob.spl");
pub const TYPICAL_TRACE: &[u8] = include_bytes!("../../examples/otway-rees/bob-good.spx");

/// A name k and 127 terms on top of it, pairs of the one before twice and encryptions under k in turn: 2^63 nodes and more.
/// These steps use them.
pub fn tower(steps: Vec<[u8; 5]>) -> Vec<u8> {
    RawTable {
        symbols: vec![0; 96],
        terms: tower_terms(),
        steps,
    }
    .bytes()
}

/// The 128 terms of a tower.
pub fn tower_terms() -> Vec<[u8; 3]> {
    let above = |i: u8| if i % 2 == 0 { [2, i, 0] } else { [1, i, i] };
    std::iter::once([0, 0, 0]).chain((0..127).map(above)).collect()
}

/// 64 steps, each of which uses all of 128 shared terms.
pub fn shared_terms() -> Vec<u8> {
    tower(vec![[3, 127, 126, 0, 0]; 64])
}

/// 96 types of 255 bytes and 512 statements that make fresh names: the longest list that can be read.
pub fn longest_bytes() -> Vec<u8> {
    let mut one = Vec::new();
    for _ in 0..127 {
        one.extend([4, 0]);
    }
    one.push(0);
    RawList {
        types: vec![one; 96],
        statements: vec![[2, 0, 0, 0]; 512],
    }
    .bytes()
}

/// 1,024 distinct values, keys and pairs of them, so many starting values, and 128 supplied ones.
pub fn full_trace(starting: usize) -> Vec<u8> {
    let key = |number: u16| [0, 0, 2, number.to_be_bytes()[0], number.to_be_bytes()[1]];
    let pair = |number: u16| {
        let [high, low] = number.to_be_bytes();
        [1, high, low, high, low]
    };
    RawTrace {
        values: (0..512).map(key).chain((0..512).map(pair)).collect(),
        starting: vec![0; starting],
        supply: vec![1023; 128],
    }
    .bytes()
}
