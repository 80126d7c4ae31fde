//! A run planned statement by statement: what is received and supplied is left open as long as it can be, so that the run goes as
//! wanted up to a statement, and this happens there.

use second::list::{List, Statement, COMPARE, DECRYPT, FRESH, LEFT, PAIR, RECEIVE, RIGHT, SEND};
use second::table::Table;
use second::trace::{Trace, CHANNEL, KEY, PLAIN};
use second::types::Type;

use crate::kind::Sits;
use crate::rng::Rng;
use crate::solver::{Ground, Shape, Solver};

/// What is to happen at a statement.
#[derive(Clone, Copy, PartialEq, Eq)]
pub enum Goal {
    Ending(u8),
    Supplied(Sits),
}

/// A trace on which every statement before the given one goes well and this happens there, as far as can be told.
pub fn reach(rng: &mut Rng, table: &Table, list: &List, at: usize, goal: Goal) -> Option<Trace> {
    let mut plan = Plan {
        list,
        solver: Solver::default(),
        registers: Vec::new(),
        starting: Vec::new(),
        supply: Vec::new(),
        others: Vec::new(),
    };
    for s in table.free() {
        let node = plan.solver.unknown(&list.types[s]);
        plan.starting.push(node);
        plan.registers.push(node);
    }
    for &statement in &list.statements[..at] {
        plan.goes_well(rng, statement)?;
    }
    match goal {
        Goal::Ending(0) => {}
        Goal::Ending(ending) => plan.ends(rng, list.statements[at], ending)?,
        Goal::Supplied(sits) => plan.supplies(rng, list.statements[at], sits)?,
    }
    // Without a supply left nothing may follow.
    if goal != Goal::Ending(1) && rng.once_in(2) {
        for _ in 0..rng.within(1, 4) {
            let node = plan.solver.unknown(&Type::Message);
            plan.supply.push(node);
        }
    }
    plan.trace(rng)
}

struct Plan<'a> {
    list: &'a List,
    solver: Solver,
    registers: Vec<usize>,
    starting: Vec<usize>,
    supply: Vec<usize>,
    /// Values of the table that nobody holds.
    others: Vec<usize>,
}

impl Plan<'_> {
    fn goes_well(&mut self, rng: &mut Rng, statement: Statement) -> Option<()> {
        let Statement { op, p, q, s } = statement;
        let solver = &mut self.solver;
        let node = match op {
            SEND => return Some(()),
            COMPARE => return solver.merge(self.registers[p], self.registers[q]).then_some(()),
            RECEIVE => {
                // Now and then a value that is there already.
                let node = if rng.once_in(4) && !self.registers.is_empty() {
                    rng.pick(&self.registers)
                } else {
                    solver.unknown(&Type::Message)
                };
                let node = if solver.clone().narrow(node, &self.list.types[s]) {
                    node
                } else {
                    solver.unknown(&Type::Message)
                };
                solver.narrow(node, &self.list.types[s]);
                self.supply.push(node);
                node
            }
            FRESH => {
                let node = solver.new_atom(kind_for(rng, &self.list.types[s]));
                self.supply.push(node);
                node
            }
            LEFT | RIGHT => {
                let (a, b) = (solver.unknown(&Type::Message), solver.unknown(&Type::Message));
                let pair = solver.pair(a, b);
                solver.merge(self.registers[p], pair).then_some(())?;
                if op == LEFT {
                    a
                } else {
                    b
                }
            }
            DECRYPT => {
                let inside = solver.unknown(&self.list.types[s]);
                let whole = solver.encrypted(inside, self.registers[q]);
                solver.merge(self.registers[p], whole).then_some(())?;
                inside
            }
            PAIR => solver.pair(self.registers[p], self.registers[q]),
            _ => solver.encrypted(self.registers[p], self.registers[q]),
        };
        self.registers.push(node);
        Some(())
    }

    /// An atom that sits so is supplied for a fresh name.
    fn supplies(&mut self, rng: &mut Rng, statement: Statement, sits: Sits) -> Option<()> {
        let atom = self.solver.new_atom(kind_for(rng, &self.list.types[statement.s]));
        self.supply.push(atom);
        let whole = self.around(rng, atom, sits);
        if sits == Sits::InValuesNotHeld {
            self.others.push(whole);
            return Some(());
        }
        // Registers of which nothing but a type is known mean symbols.
        let open = |r: &usize| self.solver.shape(*r).is_none() && self.solver.clone().merge(*r, whole);
        let held: Vec<usize> = self.registers.iter().copied().filter(open).collect();
        let held = rng.pick_any(&held)?;
        self.solver.merge(held, whole).then_some(())
    }

    /// A value in which the atom sits so.
    fn around(&mut self, rng: &mut Rng, atom: usize, sits: Sits) -> usize {
        let solver = &mut self.solver;
        let other = solver.new_atom(KEY);
        match sits {
            Sits::InHeldPair if rng.once_in(2) => solver.pair(atom, other),
            Sits::InHeldPair => solver.pair(other, atom),
            Sits::InHeldCiphertext => solver.encrypted(atom, other),
            Sits::AsKeyOfHeldCiphertext => solver.encrypted(other, atom),
            Sits::DeepInHeldValue | Sits::InValuesNotHeld => {
                let mut whole = solver.pair(other, atom);
                for _ in 1..20 {
                    whole = match rng.below(4) {
                        0 => solver.pair(whole, other),
                        1 => solver.encrypted(other, whole),
                        2 => solver.encrypted(whole, whole),
                        _ => solver.pair(whole, whole),
                    };
                }
                whole
            }
        }
    }

    /// What makes the statement end the run with this ending.
    fn ends(&mut self, rng: &mut Rng, statement: Statement, ending: u8) -> Option<()> {
        let Statement { p, q, s, .. } = statement;
        let wanted = &self.list.types[s];
        let solver = &mut self.solver;
        match ending {
            // No supply left, or values that were never made equal.
            1 | 2 => {}
            3 => {
                if solver.shape(self.registers[p]).is_none() {
                    let inside = solver.unknown(&Type::Message);
                    let key = solver.new_atom(KEY);
                    let whole = solver.encrypted(inside, key);
                    solver.merge(self.registers[p], whole).then_some(())?;
                }
            }
            4 => {
                let node = solver.lacking(rng, wanted)?;
                self.supply.push(node);
            }
            5 => {
                let inside = solver.lacking(rng, wanted)?;
                let whole = solver.encrypted(inside, self.registers[q]);
                solver.merge(self.registers[p], whole).then_some(())?;
            }
            6 => {
                let atoms: Vec<usize> = self
                    .registers
                    .iter()
                    .copied()
                    .filter(|&r| matches!(solver.shape(r), Some(Shape::Atom { .. })))
                    .chain(self.starting.iter().copied())
                    .collect();
                let node = match rng.pick_any(&atoms) {
                    Some(held) if rng.once_in(2) => held,
                    _ => {
                        let (a, b) = (solver.new_atom(PLAIN), solver.new_atom(KEY));
                        solver.pair(a, b)
                    }
                };
                self.supply.push(node);
            }
            _ => {
                let kind = if *wanted == Type::Channel { KEY } else { CHANNEL };
                let node = solver.new_atom(rng.pick(&[PLAIN, kind]));
                self.supply.push(node);
            }
        }
        Some(())
    }

    /// The trace: starting values and supply, and now and then other values, those of builds among them.
    fn trace(mut self, rng: &mut Rng) -> Option<Trace> {
        let mut ground = Ground::default();
        if rng.once_in(3) {
            let extra: Vec<usize> = self.registers.iter().copied().filter(|_| rng.once_in(4)).collect();
            for node in extra {
                self.solver.ground(rng, node, &mut ground)?;
            }
        }
        let mut indexes = |nodes: &[usize]| -> Option<Vec<usize>> {
            nodes
                .iter()
                .map(|&node| self.solver.ground(rng, node, &mut ground))
                .collect()
        };
        let starting = indexes(&self.starting)?;
        let supply = indexes(&self.supply)?;
        indexes(&self.others)?;
        let values = ground.values;
        (values.len() <= 1024).then_some(Trace {
            values,
            starting,
            supply,
        })
    }
}

/// The kind of an atom that visibly has the type of a fresh name.
fn kind_for(rng: &mut Rng, wanted: &Type) -> usize {
    match wanted {
        Type::Channel => CHANNEL,
        Type::ShKey => KEY,
        _ => rng.pick(&[PLAIN, CHANNEL, KEY]),
    }
}
