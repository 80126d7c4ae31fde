//! Running an accepted list on a trace: numbers 14 and 15, the endings, the value table and the messages.

use crate::list::{List, Statement, COMPARE, DECRYPT, ENCRYPT, FRESH, LEFT, PAIR, RECEIVE, RIGHT, SEND};
use crate::refusal::{Refusal, BUFFER, TRACE};
use crate::table::Table;
use crate::trace::{occurs_in, place_value, visibly_has, Trace, Value};

/// A message: sent or received, on which channel, which value (indexes of the value table).
#[derive(Clone, Copy, PartialEq, Eq, Debug)]
pub struct Message {
    pub received: bool,
    pub channel: usize,
    pub value: usize,
}

impl Message {
    pub fn bytes(self) -> [u8; 5] {
        let wide = |n: usize| u16::try_from(n).expect("16 bits").to_be_bytes();
        let (c, v) = (wide(self.channel), wide(self.value));
        [u8::from(self.received), c[0], c[1], v[0], v[1]]
    }
}

#[derive(Clone, PartialEq, Eq, Debug)]
pub struct Outcome {
    pub ending: u8,
    pub statement: usize,
    pub used: usize,
    pub messages: Vec<Message>,
    pub values: Vec<Value>,
}

/// Number 14.
pub fn check_start(table: &Table, list: &List, trace: &Trace) -> Result<(), Refusal> {
    let free = table.free();
    if trace.starting.len() != free.len() {
        return Refusal::give(14, TRACE, free.len().min(trace.starting.len()));
    }
    for (i, &symbol) in free.iter().enumerate() {
        if !visibly_has(&trace.values, trace.starting[i], &list.types[symbol]) {
            return Refusal::give(14, TRACE, i);
        }
    }
    Ok(())
}

/// Number 15: the bytes that the list as written needs for values and for messages.
pub fn check_buffers(list: &List, trace: &Trace, values: usize, log: usize) -> Result<(), Refusal> {
    let count = |wanted: &dyn Fn(&Statement) -> bool| list.statements.iter().filter(|s| wanted(s)).count();
    let for_values = 5 * (trace.values.len() + count(&|s| s.is_build()));
    let for_log = 5 * count(&|s| s.op == SEND || s.op == RECEIVE);
    if values < for_values {
        return Refusal::give(15, BUFFER, for_values);
    }
    if log < for_log {
        return Refusal::give(15, BUFFER, for_log);
    }
    Ok(())
}

/// Runs the list from its first statement to its ending.
pub fn run(list: &List, trace: &Trace) -> Outcome {
    let mut machine = Machine {
        list,
        trace,
        registers: trace.starting.iter().map(|&value| (value, true)).collect(),
        used: 0,
        messages: Vec::new(),
        values: trace.values.clone(),
    };
    let mut ending = 0;
    let mut at = 0;
    while at < list.statements.len() {
        if let Err(early) = machine.execute(list.statements[at]) {
            ending = early;
            break;
        }
        at += 1;
    }
    Outcome {
        ending,
        statement: at,
        used: machine.used,
        messages: machine.messages,
        values: machine.values,
    }
}

struct Machine<'a> {
    list: &'a List,
    trace: &'a Trace,
    /// Each register's value, and whether the register means a symbol.
    registers: Vec<(usize, bool)>,
    used: usize,
    messages: Vec<Message>,
    values: Vec<Value>,
}

impl Machine<'_> {
    fn value(&self, register: usize) -> usize {
        self.registers[register].0
    }

    fn has_type_of(&self, value: usize, symbol: usize) -> bool {
        visibly_has(&self.values, value, &self.list.types[symbol])
    }

    fn take_supply(&mut self) -> Result<usize, u8> {
        match self.trace.supply.get(self.used) {
            None => Err(1),
            Some(&value) => {
                self.used += 1;
                Ok(value)
            }
        }
    }

    /// Fresh: it occurs in no value held in a register that means a symbol.
    fn is_fresh(&self, value: usize) -> bool {
        let held = self.registers.iter().filter(|(_, symbol)| *symbol);
        !occurs_in(&self.values, value, held.map(|&(held, _)| held))
    }

    /// One statement; an early ending is the error.
    fn execute(&mut self, statement: Statement) -> Result<(), u8> {
        let Statement { op, p, q, s } = statement;
        match op {
            SEND => self.messages.push(Message {
                received: false,
                channel: self.value(p),
                value: self.value(q),
            }),
            RECEIVE => {
                let value = self.take_supply()?;
                let channel = self.value(p);
                self.messages.push(Message {
                    received: true,
                    channel,
                    value,
                });
                self.give_symbol(value, s, 4)?;
            }
            FRESH => {
                let value = self.take_supply()?;
                if !self.values[value].is_atom() || !self.is_fresh(value) {
                    return Err(6);
                }
                self.give_symbol(value, s, 7)?;
            }
            COMPARE => {
                if self.value(p) != self.value(q) {
                    return Err(2);
                }
            }
            LEFT | RIGHT => {
                let Value::Pair(left, right) = self.values[self.value(p)] else {
                    panic!("a split of an accepted list meets a pair");
                };
                self.registers.push((if op == LEFT { left } else { right }, true));
            }
            DECRYPT => {
                let Value::Encrypted(inside, key) = self.values[self.value(p)] else {
                    panic!("a decryption of an accepted list meets a ciphertext");
                };
                if key != self.value(q) {
                    return Err(3);
                }
                self.give_symbol(inside, s, 5)?;
            }
            PAIR => self.make(Value::Pair(self.value(p), self.value(q))),
            ENCRYPT => self.make(Value::Encrypted(self.value(p), self.value(q))),
            _ => unreachable!("number 5 is ruled out"),
        }
        Ok(())
    }

    /// A register that means the symbol, if the value visibly has the symbol's type.
    fn give_symbol(&mut self, value: usize, symbol: usize, ending: u8) -> Result<(), u8> {
        if !self.has_type_of(value, symbol) {
            return Err(ending);
        }
        self.registers.push((value, true));
        Ok(())
    }

    fn make(&mut self, made: Value) {
        let index = place_value(&mut self.values, made);
        self.registers.push((index, false));
    }
}
