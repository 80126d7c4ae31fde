//! A statement list, read as far as its entries are well formed, what its registers mean, and both in words.

use crate::codes::{find, Gives, Holds, StatementCode, TermCode, STATEMENTS, STATEMENT_FIELDS, TERMS};
use crate::entries::{entry, header, length_fault, opening, unknown, wrong_field, Bounds, Fault, Header};
use crate::library;
use crate::table::beside;
use crate::writing::{filled, is_type, section, short_type, written, Graph, Node};
use crate::{refused, Files, Kind};

/// A statement: its row and its fields p, q, s.
#[derive(Clone, Copy)]
pub struct Statement {
    pub row: &'static StatementCode,
    pub fields: [usize; 3],
}

impl Statement {
    /// Whether it builds a term.
    pub fn is_build(self) -> bool {
        matches!(self.row.gives, Gives::Term(_))
    }
}

/// What a register means: a symbol, or what was built of two registers given before it.
pub enum Meaning {
    Symbol(usize),
    Built(&'static TermCode, [usize; 2]),
}

/// What the registers of a list mean, as far as it is read.
pub struct Registers(pub Vec<Meaning>);

impl Graph for Registers {
    fn node(&self, index: usize) -> Option<Node> {
        Some(match self.0.get(index)? {
            Meaning::Symbol(symbol) => Node::Leaf(format!("s{symbol}")),
            &Meaning::Built(row, parts) => Node::Made(row, parts),
        })
    }
}

/// A list up to its first malformed entry.
pub struct List {
    pub header: Option<Header>,
    pub version: u16,
    pub types: Vec<Vec<u8>>,
    pub statements: Vec<Statement>,
    /// For each statement, how many registers the statements before it give.
    pub given: Vec<usize>,
    /// Its fault among 1 to 5.
    pub fault: Option<Fault>,
}

impl List {
    /// Reads a list; registers are tested only where the number of free symbols is known.
    pub fn read(bytes: &[u8], free: Option<usize>) -> List {
        let mut list = List {
            header: None,
            version: 0,
            types: Vec::new(),
            statements: Vec::new(),
            given: Vec::new(),
            fault: None,
        };
        match header(Kind::List, bytes) {
            Err(fault) => list.fault = Some(fault),
            Ok(header) => {
                list.version = header.version;
                let (s, n) = (header.counts[0], header.counts[1]);
                let malformed = list.read_entries(bytes, s, n, free).err();
                list.fault = wrong_length(bytes, s, n).or(malformed.flatten());
                list.header = Some(header);
            }
        }
        list
    }

    fn read_entries(&mut self, bytes: &[u8], s: usize, n: usize, free: Option<usize>) -> Result<(), Option<Fault>> {
        let mut at = 8;
        for i in 0..s {
            let found = type_at(bytes, at).ok_or(None)?;
            if !is_type(found, self.version) {
                let wrong = "these bytes are not exactly one type".to_string();
                return Err(Some(Fault::entry(
                    at,
                    &format!("the type of s{i}, after its length byte"),
                    found,
                    wrong,
                )));
            }
            self.types.push(found.to_vec());
            at += 1 + found.len();
        }
        let mut given = 0;
        for i in 0..n {
            let entry = entry::<4>(bytes, at).ok_or(None)?;
            let registers = free.map(|free| free.saturating_add(given));
            let statement = self.read_statement(entry, registers, s);
            let fault = |wrong| Some(Fault::entry(at, &format!("statement {i}"), &entry, wrong));
            let statement = statement.map_err(fault)?;
            self.statements.push(statement);
            self.given.push(given);
            given += registers_given(statement.row);
            at += 4;
        }
        Ok(())
    }

    fn read_statement(&self, entry: [u8; 4], registers: Option<usize>, symbols: usize) -> Result<Statement, String> {
        let [code, p, q, s] = entry;
        let row = find(STATEMENTS, code, self.version).ok_or_else(|| unknown("statement code", code))?;
        let fields = [p, q, s].map(usize::from);
        let bounds = Bounds {
            part: "",
            parts: 0,
            registers,
            symbols,
            sorts: &[],
            version: self.version,
        };
        match wrong_field(&row.fields, &STATEMENT_FIELDS, &fields, bounds) {
            None => Ok(Statement { row, fields }),
            Some(wrong) => {
                let plain = |i| plain_field(Statement { row, fields }, i);
                let words = filled(row.words, &STATEMENT_FIELDS, plain);
                Err(format!("{words}: {wrong}"))
            }
        }
    }

    /// What each register means, for these free symbols.
    pub fn registers(&self, free: &[usize]) -> Registers {
        let mut meanings: Vec<Meaning> = free.iter().map(|&symbol| Meaning::Symbol(symbol)).collect();
        for statement in &self.statements {
            let [p, q, _] = statement.fields;
            match statement.row.gives {
                Gives::Nothing => {}
                Gives::Symbols(fields) => {
                    let symbols = fields.iter().map(|&field| Meaning::Symbol(statement.fields[field]));
                    meanings.extend(symbols);
                }
                Gives::Term(code) => {
                    if let Some(row) = find(TERMS, code, u16::MAX) {
                        meanings.push(Meaning::Built(row, [p, q]));
                    }
                }
            }
        }
        Registers(meanings)
    }
}

/// A type's bytes, after its length byte at this offset; none if they are not all there.
fn type_at(bytes: &[u8], at: usize) -> Option<&[u8]> {
    let (&length, rest) = bytes.get(at..)?.split_first()?;
    rest.get(..usize::from(length))
}

/// Number 4. The types are walked by their length bytes alone.
fn wrong_length(bytes: &[u8], s: usize, n: usize) -> Option<Fault> {
    let mut at = 8;
    for i in 0..s {
        let Some(found) = type_at(bytes, at) else {
            return Some(Fault::length(format!(
                "it has {} bytes, and the type of s{i} is not all there",
                bytes.len()
            )));
        };
        at += 1 + found.len();
    }
    length_fault(at + 4 * n, bytes.len())
}

/// How many registers a statement gives.
pub fn registers_given(row: &StatementCode) -> usize {
    match row.gives {
        Gives::Nothing => 0,
        Gives::Symbols(fields) => fields.len(),
        Gives::Term(_) => 1,
    }
}

/// A statement's field: a register by its number, a symbol by its name.
fn plain_field(statement: Statement, field: usize) -> String {
    let letter = match statement.row.fields[field] {
        Holds::Register => 'r',
        _ => 's',
    };
    format!("{letter}{}", statement.fields[field])
}

/// A statement with its registers: `send r3 on r0`.
pub fn statement_words(statement: Statement) -> String {
    filled(statement.row.words, &STATEMENT_FIELDS, |field| {
        plain_field(statement, field)
    })
}

/// A statement with what its registers mean: `send s3 on s0`.
pub fn statement_meaning(statement: Statement, registers: &Registers) -> String {
    filled(statement.row.words, &STATEMENT_FIELDS, |field| {
        match statement.row.fields[field] {
            Holds::Register => written(registers, statement.fields[field]),
            _ => plain_field(statement, field),
        }
    })
}

/// A list in words; with a table, what each register means.
pub fn show(bytes: &[u8], table_bytes: Option<&[u8]>) -> String {
    let (table, no_table) = beside(table_bytes);
    let free = table.map(|table| table.free());
    let files = Files {
        table: table_bytes,
        list: Some(bytes),
        trace: None,
    };
    let count = free.as_ref().map(Vec::len);
    // Without a table any register may be there already.
    let refusal = library::list_refusal(bytes, count.unwrap_or(usize::MAX));
    let refusal = refusal.map(|refusal| refused(refusal, &files));
    let list = List::read(bytes, count);
    let mut out = opening(refusal, Kind::List, list.header.as_ref(), list.fault.is_none());
    out += &no_table;
    let types = list.types.iter().enumerate();
    let types = types.map(|(symbol, one)| vec![format!("s{symbol}"), short_type(one, list.version)]);
    out += &section("types", &types.collect::<Vec<_>>());
    out += &match &free {
        Some(free) => show_statements(&list, free),
        None => show_statements_alone(&list),
    };
    out
}

/// The registers at the start and the statements, with what each register means.
fn show_statements(list: &List, free: &[usize]) -> String {
    let start = free.iter().enumerate();
    let start = start.map(|(i, symbol)| vec![format!("r{i}"), format!("s{symbol}")]);
    let start = section("registers at the start: the free symbols", &start.collect::<Vec<_>>());
    let registers = list.registers(free);
    let register = |i: usize| format!("r{} = {}", free.len() + i, written(&registers, free.len() + i));
    let meaning = |statement: Statement| vec![statement_meaning(statement, &registers)];
    start + &section("statements", &statement_rows(list, register, meaning))
}

/// The statements of a list whose table is not at hand.
fn show_statements_alone(list: &List) -> String {
    if list.statements.is_empty() {
        return String::new();
    }
    let rows = statement_rows(list, |i| format!("r(F+{i})"), |_| Vec::new());
    let about = "r0 to r(F-1) are the table's F free symbols; with the table it is shown what each register means";
    format!("\n{about}\n{}", section("statements", &rows))
}

/// One row a statement: its index, its words, the registers that it gives, and what else is to be said.
fn statement_rows(
    list: &List,
    register: impl Fn(usize) -> String,
    more: impl Fn(Statement) -> Vec<String>,
) -> Vec<Vec<String>> {
    let statements = list.statements.iter().zip(&list.given).enumerate();
    let row = |(i, (&statement, &given)): (usize, (&Statement, &usize))| {
        let all: Vec<String> = (given..given + registers_given(statement.row)).map(&register).collect();
        let gives = if all.is_empty() {
            String::new()
        } else {
            format!("gives {}", all.join(" and "))
        };
        let mut row = vec![i.to_string(), statement_words(statement), gives];
        row.extend(more(statement));
        row
    };
    statements.map(row).collect()
}

/// The line of a statement: with its registers, and with what they mean.
pub fn statement_line(list: &List, registers: &Registers, index: usize) -> Option<String> {
    let &statement = list.statements.get(index)?;
    let (words, meaning) = (statement_words(statement), statement_meaning(statement, registers));
    match words == meaning {
        true => Some(format!("statement {index}: {words}")),
        false => Some(format!("statement {index}: {words}, that is: {meaning}")),
    }
}

/// How many builds a list has, and how many statements that log a message.
pub fn builds_and_messages(list: &List) -> (usize, usize) {
    let builds = list.statements.iter().filter(|statement| statement.is_build());
    let messages = list.statements.iter().filter(|statement| statement.row.logs);
    (builds.count(), messages.count())
}
