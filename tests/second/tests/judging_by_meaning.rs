//! The judge against a second reading of "a faithful rendering": each register's meaning is a term written out with its symbols, not
//! an index of the table. The lists are faithful ones with a few statement bytes changed, so that any operand may be wrong.

mod common;

use std::collections::HashMap;

use common::fine;
use generate::lists::accepted;
use generate::raw::{statement_fields, RawList};
use generate::tables::some_typed;
use generate::Rng;
use second::list::{List, Statement, PAIR};
use second::read_list::read_list;
use second::service::{judge, typed_table};
use second::table::{Step, Table, Term};

/// Terms over symbols, each written once: symbol, pair or encryption of terms written before.
#[derive(Default)]
struct Written(HashMap<Term, usize>);

impl Written {
    fn write(&mut self, term: Term) -> usize {
        let next = self.0.len();
        *self.0.entry(term).or_insert(next)
    }

    /// The table's terms.
    fn table(&mut self, table: &Table) -> Vec<usize> {
        let mut written: Vec<usize> = Vec::new();
        for &term in &table.terms {
            let term = match term {
                Term::Symbol(s) => Term::Symbol(s),
                Term::Pair(a, b) => Term::Pair(written[a], written[b]),
                Term::Encrypted(a, b) => Term::Encrypted(written[a], written[b]),
            };
            written.push(self.write(term));
        }
        written
    }
}

/// What must come next: half a step or a whole one.
fn fits(step: Step, right_half: bool, s: Statement, means: &dyn Fn(usize, usize) -> bool) -> bool {
    let whole = (s.op, s.s);
    match step {
        Step::Output { channel, message } => s.op == 0 && means(s.p, channel) && means(s.q, message),
        Step::Input { channel, x } => whole == (1, x) && means(s.p, channel),
        Step::Restriction { x } => whole == (2, x),
        Step::Match { a, b } => s.op == 3 && means(s.p, a) && means(s.q, b),
        Step::Split { a, x, .. } if !right_half => whole == (4, x) && means(s.p, a),
        Step::Split { a, y, .. } => whole == (5, y) && means(s.p, a),
        Step::Decrypt { a, key, x } => whole == (6, x) && means(s.p, a) && means(s.q, key),
    }
}

/// 12 and 13 by meaning; the types are equal.
fn by_meaning(table: &Table, list: &List) -> Result<(), (u64, u64, u64)> {
    let mut written = Written::default();
    let terms = written.table(table);
    let symbol = |written: &mut Written, s| written.write(Term::Symbol(s));
    let mut registers: Vec<usize> = Vec::new();
    for s in table.free() {
        registers.push(symbol(&mut written, s));
    }
    let (mut step, mut right_half) = (0, false);
    for (i, &statement) in list.statements.iter().enumerate() {
        let refused = Err((12, 1, i as u64));
        if statement.is_build() {
            let (p, q) = (registers[statement.p], registers[statement.q]);
            let made = written.write(if statement.op == PAIR {
                Term::Pair(p, q)
            } else {
                Term::Encrypted(p, q)
            });
            if !terms.contains(&made) {
                return refused;
            }
            registers.push(made);
            continue;
        }
        let means = |register: usize, term: usize| registers[register] == terms[term];
        if step == table.steps.len() || !fits(table.steps[step], right_half, statement, &means) {
            return refused;
        }
        if statement.gives_register() {
            registers.push(symbol(&mut written, statement.s));
        }
        right_half = matches!(table.steps[step], Step::Split { .. }) && !right_half;
        if !right_half {
            step += 1;
        }
    }
    if step < table.steps.len() {
        return Err((13, 1, step as u64));
    }
    Ok(())
}

/// Changes a few fields of statements, or takes one away, or repeats one.
fn change(rng: &mut Rng, raw: &mut RawList, free: usize) {
    for _ in 0..rng.below(3) {
        if raw.statements.is_empty() {
            return;
        }
        let at = rng.below(raw.statements.len());
        let registers = raw.registers_before(free, at).clamp(1, 256);
        let op = raw.statements[at][0];
        let (p, q, s) = statement_fields(op);
        match rng.below(6) {
            0 if p => raw.statements[at][1] = rng.below(registers) as u8,
            1 | 2 if q => raw.statements[at][2] = rng.below(registers) as u8,
            3 if s => raw.statements[at][3] = rng.below(raw.types.len()) as u8,
            4 => raw.remove(free, at),
            5 if raw.statements.len() < 512 => {
                let entry = [
                    rng.within(7, 8) as u8,
                    rng.below(registers) as u8,
                    rng.below(registers) as u8,
                    0,
                ];
                raw.insert(free, at, entry);
            }
            _ => {}
        }
    }
}

#[test]
fn the_judge_reads_meanings() {
    let mut numbers = [0; 16];
    for i in 0..6000 {
        let mut rng = Rng::part(31, i);
        let table = some_typed(&mut rng);
        let (parsed, _) = typed_table(&table).unwrap();
        let free = parsed.free().len();
        let fine_list = accepted(&mut rng, &table).unwrap();
        let mut raw = RawList::of(&read_list(&fine_list, free).unwrap());
        change(&mut rng, &mut raw, free);
        let bytes = raw.bytes();
        let Ok(list) = read_list(&bytes, free) else {
            continue;
        };
        let answer = judge(&table, &bytes);
        assert_eq!(fine(answer), by_meaning(&parsed, &list), "{i}");
        numbers[answer[0] as usize] += 1;
    }
    println!("lists by number: {numbers:?}");
    assert!(numbers[0] > 500 && numbers[12] > 500 && numbers[13] > 50, "{numbers:?}");
}
