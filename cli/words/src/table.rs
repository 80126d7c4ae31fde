//! A role table, read as far as its entries are well formed, and in words.

use crate::codes::{find, Holds, StepCode, TermCode, SORTS, STEPS, STEP_FIELDS, TERMS, TERM_FIELDS};
use crate::entries::{byte, entry, header, length_fault, opening, unknown, wrong_field, Bounds, Fault, Header};
use crate::library::{self, Refusal};
use crate::writing::{filled, section, short_type, whole_type, written, Graph, Node};
use crate::{refused, Files, Kind};

/// A step: its row and its fields a, b, x, y.
#[derive(Clone, Copy)]
pub struct Step {
    pub row: &'static StepCode,
    pub fields: [usize; 4],
}

impl Step {
    fn held(self, wanted: fn(Holds) -> bool) -> impl Iterator<Item = usize> {
        let fields = self.row.fields.iter().zip(self.fields);
        fields.filter_map(move |(&holds, number)| wanted(holds).then_some(number))
    }

    /// The terms that the step names.
    pub fn terms(self) -> impl Iterator<Item = usize> {
        self.held(|holds| holds == Holds::Term)
    }

    /// The symbols that the step binds.
    pub fn binds(self) -> impl Iterator<Item = usize> {
        self.held(|holds| matches!(holds, Holds::Name | Holds::Variable))
    }
}

/// A table up to its first malformed entry. What is there is well formed: fields are in range, and a term's parts are lower.
pub struct Table {
    pub header: Option<Header>,
    pub version: u16,
    pub sorts: Vec<u8>,
    pub terms: Vec<(&'static TermCode, [usize; 2])>,
    pub steps: Vec<Step>,
    /// Its fault among 1 to 5.
    pub fault: Option<Fault>,
}

impl Graph for Table {
    fn node(&self, index: usize) -> Option<Node> {
        let &(row, fields) = self.terms.get(index)?;
        Some(match row.gives {
            None => Node::Leaf(format!("s{}", fields[0])),
            Some(_) => Node::Made(row, fields),
        })
    }
}

impl Table {
    pub fn read(bytes: &[u8]) -> Table {
        let mut table = Table {
            header: None,
            version: 0,
            sorts: Vec::new(),
            terms: Vec::new(),
            steps: Vec::new(),
            fault: None,
        };
        match header(Kind::Table, bytes) {
            Err(fault) => table.fault = Some(fault),
            Ok(header) => {
                table.version = header.version;
                let (s, t, p) = (header.counts[0], header.counts[1], header.counts[2]);
                let malformed = table.read_entries(bytes, s, t, p).err();
                table.fault = length_fault(8 + s + 3 * t + 5 * p, bytes.len()).or(malformed.flatten());
                table.header = Some(header);
            }
        }
        table
    }

    /// The entries up to the first one that is malformed, or is not all there.
    fn read_entries(&mut self, bytes: &[u8], s: usize, t: usize, p: usize) -> Result<(), Option<Fault>> {
        for i in 0..s {
            let at = 8 + i;
            let [sort] = entry::<1>(bytes, at).ok_or(None)?;
            if find(SORTS, sort, self.version).is_none() {
                let wrong = unknown("sort", sort);
                return Err(Some(Fault::entry(at, &format!("symbol {i}"), &[sort], wrong)));
            }
            self.sorts.push(sort);
        }
        for i in 0..t {
            let at = 8 + s + 3 * i;
            let entry = entry::<3>(bytes, at).ok_or(None)?;
            let term = self.read_term(i, entry);
            let fault = |wrong| Some(Fault::entry(at, &format!("term {i}"), &entry, wrong));
            self.terms.push(term.map_err(fault)?);
        }
        for i in 0..p {
            let at = 8 + s + 3 * t + 5 * i;
            let entry = entry::<5>(bytes, at).ok_or(None)?;
            let step = self.read_step(entry);
            let fault = |wrong| Some(Fault::entry(at, &format!("step {i}"), &entry, wrong));
            self.steps.push(step.map_err(fault)?);
        }
        Ok(())
    }

    fn bounds(&self, terms: usize) -> Bounds<'_> {
        Bounds {
            part: "term",
            parts: terms,
            registers: None,
            symbols: self.sorts.len(),
            sorts: &self.sorts,
            version: self.version,
        }
    }

    fn read_term(&self, index: usize, entry: [u8; 3]) -> Result<(&'static TermCode, [usize; 2]), String> {
        let [code, a, b] = entry;
        let row = find(TERMS, code, self.version).ok_or_else(|| unknown("term code", code))?;
        let fields = [a, b].map(usize::from);
        match wrong_field(&row.fields, &TERM_FIELDS, &fields, self.bounds(index)) {
            Some(wrong) => Err(wrong),
            None => Ok((row, fields)),
        }
    }

    fn read_step(&self, entry: [u8; 5]) -> Result<Step, String> {
        let [code, a, b, x, y] = entry;
        let row = find(STEPS, code, self.version).ok_or_else(|| unknown("step code", code))?;
        let fields = [a, b, x, y].map(usize::from);
        match wrong_field(&row.fields, &STEP_FIELDS, &fields, self.bounds(self.terms.len())) {
            Some(wrong) => Err(wrong),
            None => Ok(Step { row, fields }),
        }
    }

    /// A term as in a table's text, in a bounded length.
    pub fn term(&self, index: usize) -> String {
        written(self, index)
    }

    /// The index of a term, if it is in the table.
    pub fn find(&self, code: u8, fields: [usize; 2]) -> Option<usize> {
        self.terms
            .iter()
            .position(|&(row, there)| row.code == code && there == fields)
    }

    /// The first step that binds a symbol.
    pub fn bound_by(&self, symbol: usize) -> Option<usize> {
        self.steps
            .iter()
            .position(|step| step.binds().any(|bound| bound == symbol))
    }

    /// The symbols that no step binds.
    pub fn free(&self) -> Vec<usize> {
        let all = 0..self.sorts.len();
        all.filter(|&symbol| self.bound_by(symbol).is_none()).collect()
    }

    /// Which terms these terms hold, at any depth, themselves too: one pass from the highest term down.
    pub fn held_by(&self, tops: impl Iterator<Item = usize>) -> Vec<bool> {
        let mut held = vec![false; self.terms.len()];
        tops.for_each(|top| held[top] = true);
        for (i, (row, fields)) in self.terms.iter().enumerate().rev() {
            let parts = row.fields.iter().zip(fields).filter(|(&holds, _)| holds == Holds::Term);
            if held[i] {
                parts.for_each(|(_, &part)| held[part] = true);
            }
        }
        held
    }

    /// What a step's field holds.
    pub fn field(&self, step: Step, field: usize) -> String {
        match step.row.fields[field] {
            Holds::Term => self.term(step.fields[field]),
            _ => format!("s{}", step.fields[field]),
        }
    }

    /// A step as in a table's text.
    pub fn step_text(&self, step: Step) -> String {
        filled(step.row.text, &STEP_FIELDS, |field| self.field(step, field))
    }

    /// A step in plain words.
    pub fn step_words(&self, step: Step) -> String {
        filled(step.row.words, &STEP_FIELDS, |field| self.field(step, field))
    }

    /// The line of a step: its index, its text and its words; nothing where there is no such step.
    pub fn step_line(&self, index: usize) -> Option<String> {
        let &step = self.steps.get(index)?;
        Some(format!(
            "step {index}: {} ({})",
            self.step_text(step),
            self.step_words(step)
        ))
    }

    fn sort(&self, symbol: usize) -> &'static str {
        let sort = find(SORTS, byte(&self.sorts, symbol), self.version);
        sort.map_or("?", |sort| sort.word)
    }

    /// `free` or `bound`.
    fn bound_or_free(&self, symbol: usize) -> &'static str {
        match self.bound_by(symbol) {
            None => "free",
            Some(_) => "bound",
        }
    }
}

/// The table that goes with another file, if its entries can all be read; else lines that say why not.
pub fn beside(bytes: Option<&[u8]>) -> (Option<Table>, String) {
    let Some(bytes) = bytes else {
        return (None, String::new());
    };
    let table = Table::read(bytes);
    match library::types(bytes) {
        Err(refusal) if table.fault.is_some() => {
            let why = refused(refusal, &Files::table(bytes));
            (None, format!("shown without the table, which can't be read:\n{why}"))
        }
        _ => (Some(table), String::new()),
    }
}

/// A table in words.
pub fn show(bytes: &[u8]) -> String {
    let types = library::types(bytes);
    let table = Table::read(bytes);
    let refusal = types
        .as_ref()
        .err()
        .map(|&refusal| refused(refusal, &Files::table(bytes)));
    let mut out = opening(refusal, Kind::Table, table.header.as_ref(), table.fault.is_none());
    let symbols = 0..table.sorts.len();
    let symbols = symbols.map(|symbol| symbol_row(&table, symbol, &types));
    out += &section("symbols", &symbols.collect::<Vec<_>>());
    let terms = 0..table.terms.len();
    let terms = terms.map(|term| vec![term.to_string(), table.term(term)]);
    out += &section("terms", &terms.collect::<Vec<_>>());
    let steps = table.steps.iter().enumerate();
    let steps = steps.map(|(i, &step)| vec![i.to_string(), table.step_text(step), table.step_words(step)]);
    out += &section("steps", &steps.collect::<Vec<_>>());
    out
}

fn symbol_row(table: &Table, symbol: usize, types: &Result<Vec<Vec<u8>>, Refusal>) -> Vec<String> {
    let mut row = vec![format!("s{symbol}"), table.sort(symbol).to_string()];
    row.push(match table.bound_by(symbol) {
        Some(step) => format!("bound by step {step}"),
        None if table.fault.is_some() => "bound by no step read".to_string(),
        None => "free".to_string(),
    });
    if let Ok(types) = types {
        row.extend(types.get(symbol).map(|one| short_type(one, table.version)));
    }
    row
}

/// One line a symbol: index, sort, free or bound, type.
pub fn types(bytes: &[u8], types: &[Vec<u8>]) -> String {
    let table = Table::read(bytes);
    let line = |symbol: usize| {
        let one = types
            .get(symbol)
            .map_or("?".to_string(), |one| whole_type(one, table.version));
        format!(
            "{symbol} {} {} {one}\n",
            table.sort(symbol),
            table.bound_or_free(symbol)
        )
    };
    (0..table.sorts.len()).map(line).collect()
}
