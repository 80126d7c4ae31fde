//! Judging a list against a table: numbers 11 to 13. Accepted are exactly the faithful renderings.

use crate::list::{List, Statement, COMPARE, DECRYPT, FRESH, LEFT, PAIR, RECEIVE, RIGHT, SEND};
use crate::refusal::{Refusal, LIST};
use crate::table::{Step, Table, Term};
use crate::types::Type;

/// What a register means.
#[derive(Clone, Copy, PartialEq, Eq, Debug)]
pub enum Meaning {
    Symbol(usize),
    Term(usize),
}

/// A statement that a step makes due: its code, the terms that its operands mean, and the symbol that it binds.
#[derive(Clone, Copy, PartialEq, Eq, Debug)]
pub struct Due {
    pub step: usize,
    pub op: u8,
    pub p: Option<usize>,
    pub q: Option<usize>,
    pub s: Option<usize>,
}

/// The statements due, in the order of the steps. Left and right of a split are two.
pub fn statements_due(table: &Table) -> Vec<Due> {
    let mut due = Vec::new();
    for (step, what) in table.steps.iter().enumerate() {
        let mut push = |op, p, q, s| due.push(Due { step, op, p, q, s });
        match *what {
            Step::Output { channel, message } => push(SEND, Some(channel), Some(message), None),
            Step::Input { channel, x } => push(RECEIVE, Some(channel), None, Some(x)),
            Step::Restriction { x } => push(FRESH, None, None, Some(x)),
            Step::Match { a, b } => push(COMPARE, Some(a), Some(b), None),
            Step::Split { a, x, y } => {
                push(LEFT, Some(a), None, Some(x));
                push(RIGHT, Some(a), None, Some(y));
            }
            Step::Decrypt { a, key, x } => push(DECRYPT, Some(a), Some(key), Some(x)),
        }
    }
    due
}

/// Accepts the list, which has no fault 1 to 5, or gives the first of 11 to 13.
pub fn judge(table: &Table, widest: &[Type], list: &List) -> Result<(), Refusal> {
    types_equal(widest, &list.types)?;
    let due = statements_due(table);
    let mut done = 0;
    let mut meanings: Vec<Meaning> = table.free().into_iter().map(Meaning::Symbol).collect();
    for (i, &statement) in list.statements.iter().enumerate() {
        if statement.is_build() {
            match term_made(table, &meanings, statement) {
                Some(term) => meanings.push(Meaning::Term(term)),
                None => return Refusal::give(12, LIST, i),
            }
        } else {
            if done == due.len() || !is_due(table, &meanings, statement, due[done]) {
                return Refusal::give(12, LIST, i);
            }
            if let Some(s) = due[done].s {
                meanings.push(Meaning::Symbol(s));
            }
            done += 1;
        }
    }
    match due.get(done) {
        Some(next) => Refusal::give(13, LIST, next.step),
        None => Ok(()),
    }
}

/// Number 11.
fn types_equal(widest: &[Type], types: &[Type]) -> Result<(), Refusal> {
    let both = widest.len().min(types.len());
    for i in 0..both {
        if widest[i] != types[i] {
            return Refusal::give(11, LIST, i);
        }
    }
    if widest.len() != types.len() {
        return Refusal::give(11, LIST, both);
    }
    Ok(())
}

/// The index of the term that the register means, if that term is in the table.
fn term_meant(table: &Table, meaning: Meaning) -> Option<usize> {
    match meaning {
        Meaning::Symbol(s) => table.find(Term::Symbol(s)),
        Meaning::Term(t) => Some(t),
    }
}

/// The term that a statement 7 or 8 makes, if it is in the table.
fn term_made(table: &Table, meanings: &[Meaning], statement: Statement) -> Option<usize> {
    let a = term_meant(table, meanings[statement.p])?;
    let b = term_meant(table, meanings[statement.q])?;
    table.find(if statement.op == PAIR {
        Term::Pair(a, b)
    } else {
        Term::Encrypted(a, b)
    })
}

/// Whether the statement is the one due.
fn is_due(table: &Table, meanings: &[Meaning], statement: Statement, due: Due) -> bool {
    let means = |register: usize, wanted: Option<usize>| match wanted {
        Some(term) => term_meant(table, meanings[register]) == Some(term),
        None => true,
    };
    statement.op == due.op
        && means(statement.p, due.p)
        && means(statement.q, due.q)
        && due.s.is_none_or(|s| statement.s == s)
}
