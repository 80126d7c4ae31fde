//! Faithful lists other than the compiler's: builds moved, repeated and added, different registers of the same meaning.

use second::judge::{statements_due, Due};
use second::list::{Statement, ENCRYPT, PAIR};
use second::table::{Table, Term};
use second::translate::encode_list;
use second::types::Type;

use crate::rng::Rng;

/// A faithful list for a typed table and its widest types.
pub fn faithful(rng: &mut Rng, table: &Table, types: &[Type]) -> Vec<u8> {
    let due = statements_due(table);
    let compounds: Vec<usize> = (0..table.terms.len())
        .filter(|&t| !matches!(table.terms[t], Term::Symbol(_)))
        .collect();
    let registers = table.symbols.len() + compounds.len();
    let mut writer = Writer {
        table,
        named: vec![Vec::new(); table.terms.len()],
        registers: 0,
        statements: Vec::new(),
        spare: (256 - registers).min(512 - due.len() - compounds.len()),
        compounds,
    };
    for s in table.free() {
        writer.give_symbol(s);
    }
    let eager = rng.within(1, 6);
    let flood_at = if rng.once_in(3) {
        Some(rng.below(due.len() + 1))
    } else {
        None
    };
    for (i, &next) in due.iter().enumerate() {
        while writer.spare > 0 && rng.once_in(eager + 1) {
            writer.extra_build(rng);
        }
        if flood_at.is_some_and(|at| i >= at) {
            writer.flood(rng, &due[i..]);
        }
        writer.due(rng, next);
    }
    if flood_at.is_some() {
        writer.flood(rng, &[]);
    }
    encode_list(types, &writer.statements)
}

struct Writer<'a> {
    table: &'a Table,
    /// The registers, of those that can be named, that mean each term.
    named: Vec<Vec<usize>>,
    registers: usize,
    statements: Vec<Statement>,
    /// How many builds may still be added so that every register that is needed can be named.
    spare: usize,
    compounds: Vec<usize>,
}

impl Writer<'_> {
    fn give(&mut self, term: Option<usize>) {
        if let Some(t) = term {
            if self.registers < 256 {
                self.named[t].push(self.registers);
            }
        }
        self.registers += 1;
    }

    fn give_symbol(&mut self, symbol: usize) {
        self.give(self.table.find(Term::Symbol(symbol)));
    }

    /// A register that means the term; the term is built if there is none, and now and then once more.
    fn operand(&mut self, rng: &mut Rng, term: usize) -> usize {
        if self.named[term].is_empty() {
            for part in self.table.terms[term].parts().into_iter().flatten() {
                self.operand(rng, part);
            }
            self.build(rng, term);
        } else if self.spare > 0 && rng.once_in(5) && self.can_build(term) {
            self.spare -= 1;
            self.build(rng, term);
        }
        rng.pick(&self.named[term])
    }

    fn can_build(&self, term: usize) -> bool {
        let parts = self.table.terms[term].parts();
        parts.is_some_and(|both| both.iter().all(|&part| !self.named[part].is_empty()))
    }

    /// Builds the term from any registers that mean its parts.
    fn build(&mut self, rng: &mut Rng, term: usize) {
        let (op, a, b) = match self.table.terms[term] {
            Term::Pair(a, b) => (PAIR, a, b),
            Term::Encrypted(a, b) => (ENCRYPT, a, b),
            Term::Symbol(_) => panic!("a symbol is not built"),
        };
        let p = rng.pick(&self.named[a]);
        let q = rng.pick(&self.named[b]);
        self.statements.push(Statement::new(op, p, q, 0));
        self.give(Some(term));
    }

    /// A build that isn't needed here: an early one, or one that is there already.
    fn extra_build(&mut self, rng: &mut Rng) {
        self.spare -= 1;
        let ready: Vec<usize> = self.compounds.iter().copied().filter(|&t| self.can_build(t)).collect();
        if let Some(term) = rng.pick_any(&ready) {
            self.build(rng, term);
        }
    }

    /// As many builds as the list can hold, if nothing that is still due needs a register that isn't there yet.
    fn flood(&mut self, rng: &mut Rng, due: &[Due]) {
        let there = |term: &Option<usize>| term.is_none_or(|t| !self.named[t].is_empty());
        if !due.iter().all(|d| there(&d.p) && there(&d.q)) {
            return;
        }
        let ready: Vec<usize> = self.compounds.iter().copied().filter(|&t| self.can_build(t)).collect();
        if ready.is_empty() {
            return;
        }
        self.spare = 0;
        while self.statements.len() + due.len() < 512 {
            let term = rng.pick(&ready);
            self.build(rng, term);
        }
    }

    fn due(&mut self, rng: &mut Rng, next: Due) {
        let p = next.p.map_or(0, |t| self.operand(rng, t));
        let q = next.q.map_or(0, |t| self.operand(rng, t));
        self.statements.push(Statement::new(next.op, p, q, next.s.unwrap_or(0)));
        if let Some(s) = next.s {
            self.give_symbol(s);
        }
    }
}
