//! A list against its table: the statements due, the first one that is not due, and both in words.

use crate::codes::{find, Due, Holds, TermCode, STATEMENTS, STATEMENT_FIELDS};
use crate::list::{statement_line, List, Meaning, Registers, Statement};
use crate::table::Table;
use crate::writing::filled;

/// A list and its table, with what each register means: the meaning, and its term where the table has it.
pub struct Judging<'a> {
    table: &'a Table,
    list: &'a List,
    /// How many free symbols there are.
    free: usize,
    registers: Registers,
    terms: Vec<Option<usize>>,
    /// The statements due, each with its step.
    due: Vec<(usize, &'static Due)>,
}

/// What is wrong with a list whose types are right.
pub enum Verdict {
    Accepted,
    /// A statement that is not due, and how many of those due were done before it.
    NotDue {
        statement: usize,
        done: usize,
    },
    /// The end comes early: how many of those due were done.
    Early {
        done: usize,
    },
}

impl<'a> Judging<'a> {
    pub fn new(table: &'a Table, list: &'a List) -> Judging<'a> {
        let free = table.free();
        let registers = list.registers(&free);
        let mut terms = Vec::new();
        for meaning in &registers.0 {
            terms.push(term_meant(table, meaning, &terms));
        }
        let steps = table.steps.iter().enumerate();
        let due = steps.flat_map(|(i, step)| step.row.due.iter().map(move |due| (i, due)));
        let known = |due: &Due| find(STATEMENTS, due.statement, list.version).is_some();
        Judging {
            table,
            list,
            free: free.len(),
            registers,
            terms,
            due: due.filter(|(_, due)| known(due)).collect(),
        }
    }

    /// Numbers 12 and 13.
    pub fn verdict(&self) -> Verdict {
        let mut done = 0;
        for (i, &statement) in self.list.statements.iter().enumerate() {
            let build = statement.is_build();
            let permitted = match build {
                true => self.made(i).is_some(),
                false => self.is_due(statement, done),
            };
            if !permitted {
                return Verdict::NotDue { statement: i, done };
            }
            done += usize::from(!build);
        }
        match done < self.due.len() {
            true => Verdict::Early { done },
            false => Verdict::Accepted,
        }
    }

    /// How many statements that are no builds stand before this one: in a list that is right so far, those due that are done.
    fn done_before(&self, statement: usize) -> usize {
        let before = self.list.statements.iter().take(statement);
        before.filter(|statement| !statement.is_build()).count()
    }

    /// The table's term that a build makes, if there is one.
    fn made(&self, statement: usize) -> Option<usize> {
        let register = self.free + self.list.given.get(statement)?;
        *self.terms.get(register)?
    }

    fn is_due(&self, statement: Statement, index: usize) -> bool {
        let Some(&(step, due)) = self.due.get(index) else {
            return false;
        };
        let step = self.table.steps[step];
        let fields = statement.row.fields.iter().zip(statement.fields).zip(due.from);
        let fits = |((holds, number), from): ((&Holds, usize), Option<usize>)| {
            let wanted = from.map(|field| step.fields[field]);
            match holds {
                Holds::Register => self.terms.get(number).copied().flatten() == wanted,
                Holds::Nothing => true,
                _ => Some(number) == wanted,
            }
        };
        statement.row.code == due.statement && fields.into_iter().all(fits)
    }

    /// The statement that is due after so many, in words, with the step's terms for its registers.
    fn due_words(&self, index: usize) -> Option<String> {
        let &(step, due) = self.due.get(index)?;
        let step = self.table.steps[step];
        let row = find(STATEMENTS, due.statement, self.list.version)?;
        let field = |i: usize| due.from[i].map_or(String::new(), |from| self.table.field(step, from));
        Some(filled(row.words, &STATEMENT_FIELDS, field))
    }

    /// What was due after so many: the step, and the statement that it asks for.
    fn due_lines(&self, index: usize) -> Vec<String> {
        let Some(&(step, _)) = self.due.get(index) else {
            return vec![
                "nothing is due: every step is done, and only builds of the table's terms may follow".to_string(),
            ];
        };
        let due = self.due_words(index).map(|words| format!("due is: {words}"));
        due.into_iter().chain(self.table.step_line(step)).collect()
    }

    /// Number 12 in words.
    pub fn not_due(&self, statement: usize, done: usize) -> Vec<String> {
        let mut lines: Vec<String> = statement_line(self.list, &self.registers, statement)
            .into_iter()
            .collect();
        let Some(&here) = self.list.statements.get(statement) else {
            return lines;
        };
        if here.is_build() {
            lines.push("it builds a term that is not in the table".to_string());
        }
        lines.extend(self.due_lines(done));
        let later = (done + 1..self.due.len()).find(|&index| self.is_due(here, index));
        if let Some(&(step, _)) = later.and_then(|index| self.due.get(index)) {
            lines.push(format!("it is due only later, for step {step}"));
        }
        lines
    }

    /// Number 13 in words.
    pub fn early(&self, done: usize) -> Vec<String> {
        let mut lines = vec!["every statement is right, and more is due".to_string()];
        lines.extend(self.due_lines(done));
        lines
    }

    /// A statement, and the step that it belongs to if it is no build.
    pub fn stopped(&self, statement: usize) -> Vec<String> {
        let line = statement_line(self.list, &self.registers, statement);
        let step = match self.list.statements.get(statement) {
            Some(here) if !here.is_build() => self.due.get(self.done_before(statement)),
            _ => None,
        };
        let step = step.and_then(|&(step, _)| self.table.step_line(step));
        line.into_iter().chain(step).collect()
    }

    /// The first step that is not finished after so many statements due.
    pub fn step_due(&self, done: usize) -> Option<usize> {
        self.due.get(done).map(|&(step, _)| step)
    }
}

/// The index of the table's term that a register means, given those of the registers before it.
fn term_meant(table: &Table, meaning: &Meaning, before: &[Option<usize>]) -> Option<usize> {
    match *meaning {
        Meaning::Symbol(symbol) => {
            let is_symbol = |(row, fields): &(&TermCode, [usize; 2])| row.gives.is_none() && fields[0] == symbol;
            table.terms.iter().position(is_symbol)
        }
        Meaning::Built(row, [p, q]) => {
            let part = |register: usize| before.get(register).copied().flatten();
            // A part that the code does not use is 0 in the table's entry.
            let used = |i: usize, register: usize| match row.fields[i] {
                Holds::Term => part(register),
                _ => Some(0),
            };
            table.find(row.code, [used(0, p)?, used(1, q)?])
        }
    }
}
