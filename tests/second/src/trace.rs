//! A trace once it is read: values, starting values and supply. The value table that a run extends, and what a value visibly is.

use crate::types::Type;

/// A value; its parts are indexes of lower values.
#[derive(Clone, Copy, PartialEq, Eq, Hash, Debug)]
pub enum Value {
    Atom { kind: usize, number: usize },
    Pair(usize, usize),
    Encrypted(usize, usize),
}

pub const PLAIN: usize = 0;
pub const CHANNEL: usize = 1;
pub const KEY: usize = 2;

impl Value {
    pub fn is_atom(self) -> bool {
        matches!(self, Value::Atom { .. })
    }

    /// The values that it is made of: both parts of a pair, inside and key of a ciphertext.
    pub fn parts(self) -> Vec<usize> {
        match self {
            Value::Atom { .. } => vec![],
            Value::Pair(a, b) | Value::Encrypted(a, b) => vec![a, b],
        }
    }

    pub fn bytes(self) -> [u8; 5] {
        let (tag, a, b) = match self {
            Value::Atom { kind, number } => (0, kind, number),
            Value::Pair(a, b) => (1, a, b),
            Value::Encrypted(a, b) => (2, a, b),
        };
        let wide = |n: usize| u16::try_from(n).expect("16 bits").to_be_bytes();
        [tag, wide(a)[0], wide(a)[1], wide(b)[0], wide(b)[1]]
    }
}

#[derive(Clone, PartialEq, Eq, Debug)]
pub struct Trace {
    pub values: Vec<Value>,
    pub starting: Vec<usize>,
    pub supply: Vec<usize>,
}

/// The index of a made value: that of the equal value in the table, else it is appended.
pub fn place_value(values: &mut Vec<Value>, made: Value) -> usize {
    match values.iter().position(|&v| v == made) {
        Some(index) => index,
        None => {
            values.push(made);
            values.len() - 1
        }
    }
}

/// Whether the value visibly has the type. The walk goes along the type; the inside of a ciphertext is unseen.
pub fn visibly_has(values: &[Value], index: usize, wanted: &Type) -> bool {
    match (wanted, values[index]) {
        (Type::Message, _) => true,
        (Type::Name, Value::Atom { .. }) => true,
        (Type::Channel, Value::Atom { kind, .. }) => kind == CHANNEL,
        (Type::ShKey, Value::Atom { kind, .. }) => kind == KEY,
        (Type::Pair(left, right), Value::Pair(a, b)) => visibly_has(values, a, left) && visibly_has(values, b, right),
        (Type::Cipher(_), Value::Encrypted(_, _)) => true,
        _ => false,
    }
}

/// Whether the value occurs in one of those held, or is one of them. Each value is looked into once, however often it is shared.
pub fn occurs_in(values: &[Value], value: usize, held: impl IntoIterator<Item = usize>) -> bool {
    let mut looked_into = vec![false; values.len()];
    let mut pending: Vec<usize> = held.into_iter().collect();
    while let Some(at) = pending.pop() {
        if !std::mem::replace(&mut looked_into[at], true) {
            pending.extend(values[at].parts());
        }
    }
    looked_into[value]
}
