//! The process itself, by Table 2, over the same supply: no types, any value as channel or key.

use crate::run::Message;
use crate::table::{Step, Table, Term};
use crate::trace::{occurs_in, place_value, Trace, Value};

/// Why a process is stuck.
#[derive(Clone, Copy, PartialEq, Eq, Debug)]
pub enum Stuck {
    Supply,
    Match,
    Split,
    Decryption,
    Fresh,
}

#[derive(Clone, PartialEq, Eq, Debug)]
pub struct ProcessRun {
    /// The step at which the process is stuck, and why; none if it finishes.
    pub stuck: Option<(usize, Stuck)>,
    pub messages: Vec<Message>,
    pub values: Vec<Value>,
    /// For each step that the process reached, the supplies used up to and including it.
    pub used: Vec<usize>,
    /// The substitution at the end: each symbol's value, where it has one.
    pub symbols: Vec<Option<usize>>,
}

/// Runs the process from the starting values of its free symbols.
pub fn run_process(table: &Table, trace: &Trace) -> ProcessRun {
    let mut process = Process {
        table,
        trace,
        symbols: vec![None; table.symbols.len()],
        terms: vec![None; table.terms.len()],
        used: 0,
        messages: Vec::new(),
        values: trace.values.clone(),
    };
    for (i, &symbol) in table.free().iter().enumerate() {
        process.symbols[symbol] = Some(trace.starting[i]);
    }
    let mut used = Vec::new();
    let mut stuck = None;
    for (i, &step) in table.steps.iter().enumerate() {
        let went = process.step(step);
        used.push(process.used);
        if let Err(why) = went {
            stuck = Some((i, why));
            break;
        }
    }
    ProcessRun {
        stuck,
        messages: process.messages,
        values: process.values,
        used,
        symbols: process.symbols,
    }
}

struct Process<'a> {
    table: &'a Table,
    trace: &'a Trace,
    /// The substitution: each symbol's value, once it has one.
    symbols: Vec<Option<usize>>,
    /// Each term's value under the substitution, once it is asked for; it never changes afterwards.
    terms: Vec<Option<usize>>,
    used: usize,
    messages: Vec<Message>,
    values: Vec<Value>,
}

impl Process<'_> {
    /// The term's value. Each term is worked out once, so shared terms cost nothing.
    fn value(&mut self, term: usize) -> usize {
        if let Some(value) = self.terms[term] {
            return value;
        }
        let value = match self.table.terms[term] {
            Term::Symbol(s) => self.symbols[s].expect("number 9 is ruled out"),
            Term::Pair(a, b) => {
                let made = Value::Pair(self.value(a), self.value(b));
                place_value(&mut self.values, made)
            }
            Term::Encrypted(a, b) => {
                let made = Value::Encrypted(self.value(a), self.value(b));
                place_value(&mut self.values, made)
            }
        };
        self.terms[term] = Some(value);
        value
    }

    fn take_supply(&mut self) -> Result<usize, Stuck> {
        let value = *self.trace.supply.get(self.used).ok_or(Stuck::Supply)?;
        self.used += 1;
        Ok(value)
    }

    fn step(&mut self, step: Step) -> Result<(), Stuck> {
        match step {
            Step::Output { channel, message } => {
                let message = Message {
                    received: false,
                    channel: self.value(channel),
                    value: self.value(message),
                };
                self.messages.push(message);
            }
            Step::Input { channel, x } => {
                let channel = self.value(channel);
                let value = self.take_supply()?;
                self.messages.push(Message {
                    received: true,
                    channel,
                    value,
                });
                self.symbols[x] = Some(value);
            }
            Step::Restriction { x } => {
                let value = self.take_supply()?;
                // Document 02 c): it occurs in no value of the substitution. Table 3 asks only that it is none of them.
                let held = self.symbols.iter().copied().flatten();
                if !self.values[value].is_atom() || occurs_in(&self.values, value, held) {
                    return Err(Stuck::Fresh);
                }
                self.symbols[x] = Some(value);
            }
            Step::Match { a, b } => {
                if self.value(a) != self.value(b) {
                    return Err(Stuck::Match);
                }
            }
            Step::Split { a, x, y } => {
                let whole = self.value(a);
                let Value::Pair(left, right) = self.values[whole] else {
                    return Err(Stuck::Split);
                };
                self.symbols[x] = Some(left);
                self.symbols[y] = Some(right);
            }
            Step::Decrypt { a, key, x } => {
                let whole = self.value(a);
                let key = self.value(key);
                match self.values[whole] {
                    Value::Encrypted(inside, under) if under == key => self.symbols[x] = Some(inside),
                    _ => return Err(Stuck::Decryption),
                }
            }
        }
        Ok(())
    }
}
