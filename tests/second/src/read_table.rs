//! Reading a role table: numbers 1 to 9, each looked for only when no lower one applies.

use crate::bytes::check_mark;
use crate::refusal::{Refusal, TABLE};
use crate::table::{Sort, Step, Table, Term};

/// The table, or its least fault among 1 to 9.
pub fn read_table(bytes: &[u8]) -> Result<Table, Refusal> {
    let counts = check_header(bytes)?;
    check_entries(bytes, counts)?;
    let table = decode(bytes, counts);
    no_equal_terms(&table)?;
    no_idle_terms(&table)?;
    no_second_binding(&table)?;
    no_early_use(&table)?;
    Ok(table)
}

#[derive(Clone, Copy)]
struct Counts {
    symbols: usize,
    terms: usize,
    steps: usize,
}

impl Counts {
    fn term_offset(self, i: usize) -> usize {
        8 + self.symbols + 3 * i
    }

    fn step_offset(self, i: usize) -> usize {
        8 + self.symbols + 3 * self.terms + 5 * i
    }
}

/// Numbers 1 to 4.
fn check_header(bytes: &[u8]) -> Result<Counts, Refusal> {
    check_mark(bytes, b"SPT", 8, TABLE)?;
    let counts = Counts {
        symbols: usize::from(bytes[5]),
        terms: usize::from(bytes[6]),
        steps: usize::from(bytes[7]),
    };
    if counts.symbols > 96 || counts.terms > 128 || counts.steps > 64 {
        return Refusal::give(3, TABLE, 0);
    }
    if bytes.len() != counts.step_offset(counts.steps) {
        return Refusal::give(4, TABLE, 0);
    }
    Ok(counts)
}

/// Number 5.
fn check_entries(bytes: &[u8], counts: Counts) -> Result<(), Refusal> {
    let symbols = &bytes[8..8 + counts.symbols];
    for (i, sort) in symbols.iter().enumerate() {
        if *sort > 1 {
            return Refusal::give(5, TABLE, 8 + i);
        }
    }
    for i in 0..counts.terms {
        let offset = counts.term_offset(i);
        if !term_is_fine(&bytes[offset..offset + 3], i, counts) {
            return Refusal::give(5, TABLE, offset);
        }
    }
    for i in 0..counts.steps {
        let offset = counts.step_offset(i);
        if !step_is_fine(&bytes[offset..offset + 5], symbols, counts) {
            return Refusal::give(5, TABLE, offset);
        }
    }
    Ok(())
}

fn term_is_fine(entry: &[u8], index: usize, counts: Counts) -> bool {
    let a = usize::from(entry[1]);
    let b = usize::from(entry[2]);
    match entry[0] {
        0 => a < counts.symbols && b == 0,
        1 | 2 => a < index && b < index,
        _ => false,
    }
}

fn step_is_fine(entry: &[u8], symbols: &[u8], counts: Counts) -> bool {
    let (a, b, x, y) = (entry[1], entry[2], entry[3], entry[4]);
    let term = |t: u8| usize::from(t) < counts.terms;
    let variable = |s: u8| symbols.get(usize::from(s)) == Some(&1);
    let name = |s: u8| symbols.get(usize::from(s)) == Some(&0);
    match entry[0] {
        0 => term(a) && term(b) && x == 0 && y == 0,
        1 => term(a) && b == 0 && variable(x) && y == 0,
        2 => a == 0 && b == 0 && name(x) && y == 0,
        3 => term(a) && term(b) && x == 0 && y == 0,
        4 => term(a) && b == 0 && variable(x) && variable(y),
        5 => term(a) && term(b) && variable(x) && y == 0,
        _ => false,
    }
}

/// What the bytes say, once 1 to 5 are ruled out.
fn decode(bytes: &[u8], counts: Counts) -> Table {
    let number = |offset: usize| usize::from(bytes[offset]);
    let symbols = (0..counts.symbols).map(|i| match bytes[8 + i] {
        0 => Sort::Name,
        _ => Sort::Variable,
    });
    let terms = (0..counts.terms).map(|i| {
        let at = counts.term_offset(i);
        let (a, b) = (number(at + 1), number(at + 2));
        match bytes[at] {
            0 => Term::Symbol(a),
            1 => Term::Pair(a, b),
            _ => Term::Encrypted(a, b),
        }
    });
    let steps = (0..counts.steps).map(|i| {
        let at = counts.step_offset(i);
        let (a, b, x, y) = (number(at + 1), number(at + 2), number(at + 3), number(at + 4));
        match bytes[at] {
            0 => Step::Output { channel: a, message: b },
            1 => Step::Input { channel: a, x },
            2 => Step::Restriction { x },
            3 => Step::Match { a, b },
            4 => Step::Split { a, x, y },
            _ => Step::Decrypt { a, key: b, x },
        }
    });
    Table {
        symbols: symbols.collect(),
        terms: terms.collect(),
        steps: steps.collect(),
    }
}

/// Number 6. Parts are lower and, up to the first equal term, distinct: so equal terms are equal entries.
fn no_equal_terms(table: &Table) -> Result<(), Refusal> {
    for i in 0..table.terms.len() {
        if table.terms[..i].contains(&table.terms[i]) {
            return Refusal::give(6, TABLE, i);
        }
    }
    Ok(())
}

/// Number 7.
fn no_idle_terms(table: &Table) -> Result<(), Refusal> {
    let mut named = vec![false; table.terms.len()];
    for term in &table.terms {
        for part in term.parts().into_iter().flatten() {
            named[part] = true;
        }
    }
    for step in &table.steps {
        for term in step.terms() {
            named[term] = true;
        }
    }
    match named.iter().position(|&n| !n) {
        Some(idle) => Refusal::give(7, TABLE, idle),
        None => Ok(()),
    }
}

/// Number 8. A split that binds one symbol twice binds it again in its own step.
fn no_second_binding(table: &Table) -> Result<(), Refusal> {
    let mut bound = vec![false; table.symbols.len()];
    for (i, step) in table.steps.iter().enumerate() {
        for x in step.binds() {
            if bound[x] {
                return Refusal::give(8, TABLE, i);
            }
            bound[x] = true;
        }
    }
    Ok(())
}

/// Number 9.
fn no_early_use(table: &Table) -> Result<(), Refusal> {
    let bound = table.bound_at();
    for (i, step) in table.steps.iter().enumerate() {
        let held = table.held_by(&step.terms());
        for (t, term) in table.terms.iter().enumerate() {
            if let Term::Symbol(s) = term {
                if held[t] && bound[*s].is_some_and(|at| at >= i) {
                    return Refusal::give(9, TABLE, i);
                }
            }
        }
    }
    Ok(())
}
