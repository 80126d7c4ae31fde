//! The translation of a typed table: Figures 3 and 4, with registers in place of Java variables.

use crate::bytes::{put_wide, VERSION};
use crate::list::{Statement, COMPARE, DECRYPT, ENCRYPT, FRESH, LEFT, PAIR, RECEIVE, RIGHT, SEND};
use crate::table::{Step, Table, Term};
use crate::types::{entries, Type};

/// The list's bytes for a table and its widest types.
pub fn list_bytes(table: &Table, types: &[Type]) -> Vec<u8> {
    encode_list(types, &translate(table))
}

/// A list's bytes: header, types, statements.
pub fn encode_list(types: &[Type], statements: &[Statement]) -> Vec<u8> {
    let mut out = b"SPL".to_vec();
    put_wide(&mut out, VERSION);
    out.push(types.len() as u8);
    put_wide(&mut out, statements.len());
    out.extend(entries(types));
    for statement in statements {
        out.extend(statement.bytes());
    }
    out
}

/// The statements of the table's steps, each term built once, just before its first use.
pub fn translate(table: &Table) -> Vec<Statement> {
    let mut state = State {
        table,
        symbols: vec![None; table.symbols.len()],
        terms: vec![None; table.terms.len()],
        registers: 0,
        statements: Vec::new(),
    };
    for s in table.free() {
        state.symbols[s] = Some(state.next_register());
    }
    for &step in &table.steps {
        state.step(step);
    }
    state.statements
}

struct State<'a> {
    table: &'a Table,
    /// The register of each symbol that is free or bound so far.
    symbols: Vec<Option<usize>>,
    /// The register of each pair and encryption built so far.
    terms: Vec<Option<usize>>,
    registers: usize,
    statements: Vec<Statement>,
}

impl State<'_> {
    fn next_register(&mut self) -> usize {
        self.registers += 1;
        self.registers - 1
    }

    /// A statement that binds symbol s.
    fn bind(&mut self, op: u8, p: usize, q: usize, s: usize) {
        self.statements.push(Statement::new(op, p, q, s));
        self.symbols[s] = Some(self.next_register());
    }

    /// tr_t: the term's register; the term is built if it isn't yet. No term is built twice, so shared terms cost nothing.
    fn build(&mut self, term: usize) -> usize {
        if let Term::Symbol(s) = self.table.terms[term] {
            return self.symbols[s].expect("number 9 is ruled out");
        }
        if let Some(register) = self.terms[term] {
            return register;
        }
        let (op, a, b) = match self.table.terms[term] {
            Term::Pair(a, b) => (PAIR, a, b),
            Term::Encrypted(a, b) => (ENCRYPT, a, b),
            Term::Symbol(_) => unreachable!(),
        };
        let p = self.build(a);
        let q = self.build(b);
        self.statements.push(Statement::new(op, p, q, 0));
        let register = self.next_register();
        self.terms[term] = Some(register);
        register
    }

    /// tr_p, one step.
    fn step(&mut self, step: Step) {
        match step {
            Step::Output { channel, message } => {
                let p = self.build(channel);
                let q = self.build(message);
                self.statements.push(Statement::new(SEND, p, q, 0));
            }
            Step::Input { channel, x } => {
                let p = self.build(channel);
                self.bind(RECEIVE, p, 0, x);
            }
            Step::Restriction { x } => self.bind(FRESH, 0, 0, x),
            Step::Match { a, b } => {
                let p = self.build(a);
                let q = self.build(b);
                self.statements.push(Statement::new(COMPARE, p, q, 0));
            }
            Step::Split { a, x, y } => {
                let p = self.build(a);
                self.bind(LEFT, p, 0, x);
                self.bind(RIGHT, p, 0, y);
            }
            Step::Decrypt { a, key, x } => {
                let p = self.build(a);
                let q = self.build(key);
                self.bind(DECRYPT, p, q, x);
            }
        }
    }
}
