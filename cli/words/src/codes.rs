//! The codes of the three files as data: one row a code, with the version that brought it, what its fields hold, and its words.
//! Every reader and writer of this package consults these rows, and nothing else knows a code.
//!
//! In a row's words `$a` stands for what field a holds: a symbol as `s7`, a term or a value written out, a register as `r5` or as
//! what it means.

mod steps;
mod terms;

use crate::Kind;

pub use steps::{Due, Gives, StatementCode, StepCode, DIRECTIONS, ENDINGS, STATEMENTS, STEPS};
pub use terms::{lies_below, AtomKind, Sort, TermCode, TypeCode, Want, ATOM, ATOMS, SORTS, TERMS, TYPES};

/// A file: its mark, its header, the counts in it and their limits.
pub struct File {
    pub kind: Kind,
    pub mark: &'static [u8; 3],
    pub word: &'static str,
    pub header: usize,
    /// The newest version that is known.
    pub newest: u16,
    pub counts: &'static [Count],
}

/// A count in a header: what it counts (one, many), where it stands, how many bytes it has, and its limit.
pub struct Count {
    pub one: &'static str,
    pub many: &'static str,
    pub at: usize,
    pub bytes: usize,
    pub limit: usize,
}

const fn count(one: &'static str, many: &'static str, at: usize, bytes: usize, limit: usize) -> Count {
    Count {
        one,
        many,
        at,
        bytes,
        limit,
    }
}

/// The files by their number in a refusal.
pub const FILES: [File; 3] = [
    File {
        kind: Kind::Table,
        mark: b"SPT",
        word: "table",
        header: 8,
        newest: 1,
        counts: &[
            count("symbol", "symbols", 5, 1, 96),
            count("term", "terms", 6, 1, 128),
            count("step", "steps", 7, 1, 64),
        ],
    },
    File {
        kind: Kind::List,
        mark: b"SPL",
        word: "list",
        header: 8,
        newest: 1,
        counts: &[
            count("type", "types", 5, 1, 96),
            count("statement", "statements", 6, 2, 512),
        ],
    },
    File {
        kind: Kind::Trace,
        mark: b"SPX",
        word: "trace",
        header: 10,
        newest: 1,
        counts: &[
            count("value", "values", 5, 2, 1024),
            count("supplied value", "supplied values", 7, 2, 128),
            count("starting value", "starting values", 9, 1, 96),
        ],
    },
];

/// What a field of an entry holds.
#[derive(Clone, Copy, PartialEq, Eq, Debug)]
pub enum Holds {
    /// Nothing: it is 0.
    Nothing,
    /// A term of the table; in an entry of the terms, a lower one. In an entry of the values, a lower value.
    Term,
    /// A register that is there already.
    Register,
    /// A symbol of any sort.
    Symbol,
    /// A symbol that is a name.
    Name,
    /// A symbol that is a variable.
    Variable,
}

/// The letters of an entry's fields: of a term, a step and a statement.
pub const TERM_FIELDS: [char; 2] = ['a', 'b'];
pub const STEP_FIELDS: [char; 4] = ['a', 'b', 'x', 'y'];
pub const STATEMENT_FIELDS: [char; 3] = ['p', 'q', 's'];

/// A row with a code, known from a version on.
pub trait Row {
    fn code(&self) -> u16;
    fn since(&self) -> u16;
}

macro_rules! rows {
    ($($row:ty),*) => {
        $(impl Row for $row {
            fn code(&self) -> u16 {
                u16::from(self.code)
            }
            fn since(&self) -> u16 {
                self.since
            }
        })*
    };
}
rows!(Sort, TypeCode, TermCode, AtomKind, StepCode, StatementCode);

/// The row of a code, if the version knows it.
pub fn find<R: Row>(rows: &'static [R], code: impl Into<u16>, version: u16) -> Option<&'static R> {
    let code = code.into();
    rows.iter().find(|row| row.code() == code && row.since() <= version)
}

/// The file of a kind.
pub fn file(kind: Kind) -> &'static File {
    &FILES[kind as usize]
}
