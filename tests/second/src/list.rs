//! A statement list once it is read: types and statements.

use crate::types::Type;

/// A statement; p and q are registers, s is a symbol. Fields that a statement doesn't use are 0.
#[derive(Clone, Copy, PartialEq, Eq, Debug)]
pub struct Statement {
    pub op: u8,
    pub p: usize,
    pub q: usize,
    pub s: usize,
}

pub const SEND: u8 = 0;
pub const RECEIVE: u8 = 1;
pub const FRESH: u8 = 2;
pub const COMPARE: u8 = 3;
pub const LEFT: u8 = 4;
pub const RIGHT: u8 = 5;
pub const DECRYPT: u8 = 6;
pub const PAIR: u8 = 7;
pub const ENCRYPT: u8 = 8;

impl Statement {
    pub fn new(op: u8, p: usize, q: usize, s: usize) -> Statement {
        Statement { op, p, q, s }
    }

    pub fn is_build(self) -> bool {
        self.op == PAIR || self.op == ENCRYPT
    }

    pub fn gives_register(self) -> bool {
        gives_register(self.op)
    }

    pub fn bytes(self) -> [u8; 4] {
        assert!(self.p < 256 && self.q < 256 && self.s < 256);
        [self.op, self.p as u8, self.q as u8, self.s as u8]
    }
}

pub fn gives_register(op: u8) -> bool {
    op != SEND && op != COMPARE
}

#[derive(Clone, PartialEq, Eq, Debug)]
pub struct List {
    pub types: Vec<Type>,
    pub statements: Vec<Statement>,
    /// Where the first statement stands in the bytes.
    pub first_statement: usize,
}
