//! Sorts of symbols, codes of types, terms and values, and kinds of atoms.

use super::{find, Holds};
use Holds::{Nothing, Symbol, Term};

/// A sort of symbols.
pub struct Sort {
    pub code: u8,
    pub since: u16,
    pub word: &'static str,
    pub is_name: bool,
    /// The code of the widest type that a symbol of this sort may have.
    pub widest: u8,
}

pub const SORTS: &[Sort] = &[
    Sort {
        code: 0,
        since: 1,
        word: "name",
        is_name: true,
        widest: 1,
    },
    Sort {
        code: 1,
        since: 1,
        word: "variable",
        is_name: false,
        widest: 0,
    },
];

/// A code of types.
pub struct TypeCode {
    pub code: u8,
    pub since: u16,
    pub word: &'static str,
    /// The type just above a type with no parts, and above every type of a former.
    pub below: Option<u8>,
    /// What each part is called.
    pub parts: &'static [&'static str],
    /// Whether a value's parts are seen when it is held against a type of this code.
    pub seen: bool,
}

const fn basic(code: u8, since: u16, word: &'static str, below: Option<u8>) -> TypeCode {
    TypeCode {
        code,
        since,
        word,
        below,
        parts: &[],
        seen: false,
    }
}

/// The type on top.
pub const MESSAGE: u8 = 0;

pub const TYPES: &[TypeCode] = &[
    basic(MESSAGE, 1, "Message", None),
    basic(1, 1, "Name", Some(MESSAGE)),
    basic(2, 1, "Channel", Some(1)),
    basic(3, 1, "ShKey", Some(1)),
    TypeCode {
        code: 4,
        since: 1,
        word: "pair",
        below: Some(MESSAGE),
        parts: &["left part", "right part"],
        seen: true,
    },
    TypeCode {
        code: 5,
        since: 1,
        word: "ciphertext",
        below: Some(MESSAGE),
        parts: &["inside"],
        seen: false,
    },
];

/// A code of terms. Values have the same codes, but for 0: see `ATOM`.
pub struct TermCode {
    pub code: u8,
    pub since: u16,
    pub text: &'static str,
    pub fields: [Holds; 2],
    /// The type that a term of this code has, as its code, and the fields whose types are its parts. A symbol has its own type.
    pub gives: Option<(u8, &'static [usize])>,
    /// What the code asks of its fields.
    pub wants: &'static [Want],
}

/// A field that is wanted as a type: its code, and the symbols that are bound to its parts, as fields. The words say who wants it.
#[derive(Debug)]
pub struct Want {
    pub field: usize,
    pub wanted: u8,
    pub over: &'static [usize],
    pub words: &'static str,
}

pub(super) const fn want(field: usize, wanted: u8, over: &'static [usize], words: &'static str) -> Want {
    Want {
        field,
        wanted,
        over,
        words,
    }
}

pub const TERMS: &[TermCode] = &[
    TermCode {
        code: 0,
        since: 1,
        text: "$a",
        fields: [Symbol, Nothing],
        gives: None,
        wants: &[],
    },
    TermCode {
        code: 1,
        since: 1,
        text: "($a, $b)",
        fields: [Term, Term],
        gives: Some((4, &[0, 1])),
        wants: &[],
    },
    TermCode {
        code: 2,
        since: 1,
        text: "{$a}$b",
        fields: [Term, Term],
        gives: Some((5, &[0])),
        wants: &[want(1, 3, &[], "encrypts under $b")],
    },
];

/// The value code of an atom: its kind and its number.
pub const ATOM: u8 = 0;

/// A kind of atoms, and the code of the lowest type that they visibly have.
pub struct AtomKind {
    pub code: u16,
    pub since: u16,
    pub word: &'static str,
    pub has: u8,
}

const fn atom(code: u16, since: u16, word: &'static str, has: u8) -> AtomKind {
    AtomKind { code, since, word, has }
}

pub const ATOMS: &[AtomKind] = &[atom(0, 1, "plain", 1), atom(1, 1, "channel", 2), atom(2, 1, "key", 3)];

/// Whether every type of this code lies at or below the other code's, which has no parts or is the same.
pub fn lies_below(code: u8, other: u8) -> bool {
    let above = |&code: &u8| find(TYPES, code, u16::MAX)?.below;
    std::iter::successors(Some(code), above).any(|code| code == other)
}
