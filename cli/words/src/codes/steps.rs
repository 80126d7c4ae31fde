//! Codes of steps and statements, the directions of messages, and the endings.

use super::terms::{want, Want};
use super::Holds;
use Holds::{Name, Nothing, Register, Symbol, Term, Variable};

/// A code of steps: as in a table's text, and in words. Fields are a, b, x, y.
pub struct StepCode {
    pub code: u8,
    pub since: u16,
    pub text: &'static str,
    pub words: &'static str,
    pub fields: [Holds; 4],
    pub wants: &'static [Want],
    /// The statements that the step makes due, in order; of a list's version those that it knows.
    pub due: &'static [Due],
}

/// A statement that a step makes due: its code, and for p, q and s the step's field that it takes.
pub struct Due {
    pub statement: u8,
    pub from: [Option<usize>; 3],
}

const fn due(statement: u8, p: Option<usize>, q: Option<usize>, s: Option<usize>) -> Due {
    Due {
        statement,
        from: [p, q, s],
    }
}

const A: Option<usize> = Some(0);
const B: Option<usize> = Some(1);
const X: Option<usize> = Some(2);
const Y: Option<usize> = Some(3);

pub const STEPS: &[StepCode] = &[
    StepCode {
        code: 0,
        since: 1,
        text: "out $a $b",
        words: "send $b on $a",
        fields: [Term, Term, Nothing, Nothing],
        wants: &[want(0, 2, &[], "sends on $a")],
        due: &[due(0, A, B, None)],
    },
    StepCode {
        code: 1,
        since: 1,
        text: "in $a $x",
        words: "receive $x on $a",
        fields: [Term, Nothing, Variable, Nothing],
        wants: &[want(0, 2, &[], "receives on $a")],
        due: &[due(1, A, None, X)],
    },
    StepCode {
        code: 2,
        since: 1,
        text: "new $x",
        words: "make $x, a fresh name",
        fields: [Nothing, Nothing, Name, Nothing],
        wants: &[],
        due: &[due(2, None, None, X)],
    },
    StepCode {
        code: 3,
        since: 1,
        text: "match $a $b",
        words: "go on only if $a equals $b",
        fields: [Term, Term, Nothing, Nothing],
        wants: &[],
        due: &[due(3, A, B, None)],
    },
    StepCode {
        code: 4,
        since: 1,
        text: "split $a $x $y",
        words: "split $a into $x and $y",
        fields: [Term, Nothing, Variable, Variable],
        wants: &[want(0, 4, &[2, 3], "splits $a")],
        due: &[due(4, A, None, X), due(5, A, None, Y)],
    },
    StepCode {
        code: 5,
        since: 1,
        text: "decrypt $a $b $x",
        words: "decrypt $a with $b as $x",
        fields: [Term, Term, Variable, Nothing],
        wants: &[want(0, 5, &[2], "decrypts $a"), want(1, 3, &[], "decrypts with $b")],
        due: &[due(6, A, B, X)],
    },
];

/// What a statement gives registers for.
pub enum Gives {
    Nothing,
    /// The symbols that these fields hold, a register each.
    Symbols(&'static [usize]),
    /// The term of this code that the statement builds of p and q.
    Term(u8),
}

/// A code of statements. Fields are p, q, s.
pub struct StatementCode {
    pub code: u8,
    pub since: u16,
    pub words: &'static str,
    pub fields: [Holds; 3],
    pub gives: Gives,
    /// Whether a run logs a message here.
    pub logs: bool,
}

const fn statement(
    code: u8,
    since: u16,
    words: &'static str,
    fields: [Holds; 3],
    gives: Gives,
    logs: bool,
) -> StatementCode {
    StatementCode {
        code,
        since,
        words,
        fields,
        gives,
        logs,
    }
}

const PQ: [Holds; 3] = [Register, Register, Nothing];
const PS: [Holds; 3] = [Register, Nothing, Symbol];
const PQS: [Holds; 3] = [Register, Register, Symbol];
const S: [Holds; 3] = [Nothing, Nothing, Symbol];
const SYMBOL: Gives = Gives::Symbols(&[2]);

pub const STATEMENTS: &[StatementCode] = &[
    statement(0, 1, "send $q on $p", PQ, Gives::Nothing, true),
    statement(1, 1, "receive on $p into $s", PS, SYMBOL, true),
    statement(2, 1, "fresh name $s", S, SYMBOL, false),
    statement(3, 1, "compare $p with $q", PQ, Gives::Nothing, false),
    statement(4, 1, "left part of $p into $s", PS, SYMBOL, false),
    statement(5, 1, "right part of $p into $s", PS, SYMBOL, false),
    statement(6, 1, "decrypt $p with $q into $s", PQS, SYMBOL, false),
    statement(7, 1, "pair of $p and $q", PQ, Gives::Term(1), false),
    statement(8, 1, "encrypt $p under $q", PQ, Gives::Term(2), false),
];

/// The directions of a logged message.
pub const DIRECTIONS: [&str; 2] = ["sent", "received"];

/// The endings of a run.
pub const ENDINGS: [&str; 8] = [
    "finished",
    "no supply left",
    "comparison failed",
    "wrong key",
    "received value lacks its type",
    "decrypted value lacks its type",
    "supplied value is not a fresh atom",
    "fresh name lacks its type",
];
