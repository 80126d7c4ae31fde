//! A trace, and a run's values and messages, read as far as their entries are well formed, and in words.

use crate::codes::{file, find, lies_below, TermCode, ATOM, ATOMS, DIRECTIONS, TERMS, TERM_FIELDS, TYPES};
use crate::entries::{entry, header, length_fault, opening, unknown, wide, wrong_field, Bounds, Fault, Header};
use crate::library;
use crate::table::{beside, Table};
use crate::writing::{counted, hex, section, short_type, written, Graph, Node};
use crate::{refused, Files, Kind};

/// A value: an atom of a kind, or what a code makes of two lower values.
#[derive(Clone, Copy, PartialEq, Eq)]
pub enum Value {
    Atom { kind: u16, number: u16 },
    Made { code: u8, parts: [usize; 2] },
}

/// A value table, up to its first malformed entry.
pub struct Values {
    version: u16,
    pub all: Vec<Value>,
}

impl Graph for Values {
    fn node(&self, index: usize) -> Option<Node> {
        Some(match *self.all.get(index)? {
            Value::Atom { kind, number } => {
                let kind = find(ATOMS, kind, self.version)?;
                Node::Leaf(format!("{} {number}", kind.word))
            }
            Value::Made { code, parts } => Node::Made(find(TERMS, code, self.version)?, parts),
        })
    }
}

/// Bytes that are no value, and what is wrong with them.
struct NoValue {
    index: usize,
    bytes: [u8; 5],
    wrong: String,
}

impl Values {
    fn new(version: u16) -> Values {
        Values {
            version,
            all: Vec::new(),
        }
    }

    /// Reads so many values, up to the first one that is malformed or is not all there.
    fn read(&mut self, bytes: &[u8], count: usize) -> Result<(), Option<NoValue>> {
        for index in 0..count {
            let bytes = entry::<5>(bytes, 5 * index).ok_or(None)?;
            match self.read_value(index, bytes) {
                Ok(value) => self.all.push(value),
                Err(wrong) => return Err(Some(NoValue { index, bytes, wrong })),
            }
        }
        Ok(())
    }

    fn read_value(&self, index: usize, bytes: [u8; 5]) -> Result<Value, String> {
        let (code, a, b) = (bytes[0], wide(&bytes, 1), wide(&bytes, 3));
        if code == ATOM {
            let kind = find(ATOMS, a, self.version).ok_or_else(|| unknown("kind of atoms", a))?;
            return Ok(Value::Atom {
                kind: kind.code,
                number: b,
            });
        }
        let row: &TermCode = find(TERMS, code, self.version).ok_or_else(|| unknown("value code", code))?;
        let parts = [a, b].map(usize::from);
        let bounds = Bounds {
            part: "value",
            parts: index,
            registers: None,
            symbols: 0,
            sorts: &[],
            version: self.version,
        };
        match wrong_field(&row.fields, &TERM_FIELDS, &parts, bounds) {
            Some(wrong) => Err(wrong),
            None => Ok(Value::Made { code, parts }),
        }
    }

    /// A value written out, in a bounded length.
    pub fn value(&self, index: usize) -> String {
        written(self, index)
    }

    /// Whether a value visibly has a type. The walk goes along the type's bytes; what no one sees may be anything.
    pub fn visibly_has(&self, index: usize, bytes: &[u8]) -> bool {
        let mut pending = vec![Some(index)];
        bytes.iter().all(|&code| {
            let (Some(row), Some(here)) = (find(TYPES, code, self.version), pending.pop()) else {
                return false;
            };
            let (has, parts) = match here {
                Some(value) => self.visible(value),
                None => (Some(code), Vec::new()),
            };
            let part = |i: usize| parts.get(i).copied().filter(|_| row.seen);
            pending.extend((0..row.parts.len()).rev().map(part));
            has.is_some_and(|has| lies_below(has, code))
        })
    }

    /// The code of the lowest type that a value visibly has, and the values of that type's parts.
    fn visible(&self, index: usize) -> (Option<u8>, Vec<usize>) {
        match self.all.get(index) {
            Some(Value::Atom { kind, .. }) => (find(ATOMS, *kind, self.version).map(|kind| kind.has), Vec::new()),
            Some(Value::Made { code, parts }) => {
                let (has, fields) = find(TERMS, *code, self.version).and_then(|row| row.gives).unzip();
                let fields = fields.unwrap_or(&[]).iter();
                (has, fields.map(|&field| parts[field]).collect())
            }
            None => (None, Vec::new()),
        }
    }

    fn rows(&self) -> Vec<Vec<String>> {
        let all = 0..self.all.len();
        all.map(|index| vec![index.to_string(), self.value(index)]).collect()
    }
}

/// A trace up to its first malformed entry.
pub struct Trace {
    pub header: Option<Header>,
    pub values: Values,
    pub starting: Vec<usize>,
    pub supply: Vec<usize>,
    /// Its fault among 1 to 5.
    pub fault: Option<Fault>,
}

impl Trace {
    pub fn read(bytes: &[u8]) -> Trace {
        let mut trace = Trace {
            header: None,
            values: Values::new(0),
            starting: Vec::new(),
            supply: Vec::new(),
            fault: None,
        };
        match header(Kind::Trace, bytes) {
            Err(fault) => trace.fault = Some(fault),
            Ok(header) => {
                trace.values.version = header.version;
                let (v, k, f) = (header.counts[0], header.counts[1], header.counts[2]);
                let malformed = trace.read_entries(bytes, v, k, f).err();
                trace.fault = length_fault(10 + 5 * v + 2 * f + 2 * k, bytes.len()).or(malformed.flatten());
                trace.header = Some(header);
            }
        }
        trace
    }

    fn read_entries(&mut self, bytes: &[u8], v: usize, k: usize, f: usize) -> Result<(), Option<Fault>> {
        let values = self.values.read(bytes.get(10..).unwrap_or(&[]), v);
        values.map_err(|no_value| {
            no_value.map(|no| Fault::entry(10 + 5 * no.index, &format!("value {}", no.index), &no.bytes, no.wrong))
        })?;
        let starts = 10 + 5 * v;
        read_indexes(&mut self.starting, bytes, starts, f, v, "starting value")?;
        read_indexes(&mut self.supply, bytes, starts + 2 * f, k, v, "supplied value")
    }
}

/// So many 16-bit indexes of values, up to the first one that is out of range or is not all there.
fn read_indexes(
    into: &mut Vec<usize>,
    bytes: &[u8],
    start: usize,
    count: usize,
    values: usize,
    word: &str,
) -> Result<(), Option<Fault>> {
    for i in 0..count {
        let at = start + 2 * i;
        let pair = entry::<2>(bytes, at).ok_or(None)?;
        let index = usize::from(u16::from_be_bytes(pair));
        if index >= values {
            let wrong = format!("there is no value {index}: there are {values}");
            return Err(Some(Fault::entry(at, &format!("{word} {i}"), &pair, wrong)));
        }
        into.push(index);
    }
    Ok(())
}

/// A trace in words; with a table, the free symbol of each starting value.
pub fn show(bytes: &[u8], table_bytes: Option<&[u8]>) -> String {
    let files = Files {
        table: table_bytes,
        list: None,
        trace: Some(bytes),
    };
    let refusal = library::trace_refusal(bytes).map(|refusal| refused(refusal, &files));
    let trace = Trace::read(bytes);
    let (table, no_table) = beside(table_bytes);
    let mut out = opening(refusal, Kind::Trace, trace.header.as_ref(), trace.fault.is_none());
    out += &no_table;
    out += &section("values", &trace.values.rows());
    let symbols = table.map(|table| free_words(&table, table_bytes.unwrap_or(&[])));
    let row = |(i, &index): (usize, &usize)| vec![i.to_string(), format!("value {index}"), trace.values.value(index)];
    let starting = trace.starting.iter().enumerate().map(|(i, index)| {
        let mut row = row((i, index));
        let symbol = |all: &Vec<String>| {
            all.get(i)
                .map_or("for no free symbol".to_string(), |one| format!("for {one}"))
        };
        row.extend(symbols.as_ref().map(symbol));
        row
    });
    out += &section("starting values", &starting.collect::<Vec<_>>());
    let missing = symbols.as_ref().and_then(|all| all.get(trace.starting.len()..));
    if let Some(missing) = missing.filter(|missing| !missing.is_empty() && trace.fault.is_none()) {
        out += &format!("\nno starting value for {}\n", missing.join(", "));
    }
    let supply = trace.supply.iter().enumerate().map(row);
    out += &section("supply", &supply.collect::<Vec<_>>());
    out
}

/// The free symbols, each with its widest type where the table has types: `s0: Channel`.
fn free_words(table: &Table, bytes: &[u8]) -> Vec<String> {
    let types = library::types(bytes).unwrap_or_default();
    let free = table.free().into_iter();
    let words = free.map(|symbol| match types.get(symbol) {
        Some(one) => format!("s{symbol}: {}", short_type(one, table.version)),
        None => format!("s{symbol}"),
    });
    words.collect()
}

/// The version by which a run's buffers are read: they have none of their own.
fn newest() -> u16 {
    file(Kind::Trace).newest
}

/// A value buffer, and the line for what is not a value or is left over.
fn read_values(bytes: &[u8]) -> (Values, String) {
    let mut values = Values::new(newest());
    let end = match values.read(bytes, bytes.len() / 5) {
        Err(Some(no)) => format!("value {} is malformed: {}: {}\n", no.index, hex(&no.bytes), no.wrong),
        _ => rest_line(bytes.len() % 5),
    };
    (values, end)
}

/// A run's values in words, one line each.
pub fn show_values(bytes: &[u8]) -> String {
    let (values, end) = read_values(bytes);
    let count = counted(values.all.len(), "value", "values");
    let lines = values.rows().into_iter().map(|row| format!("{}  {}\n", row[0], row[1]));
    format!("{count}\n{}{end}", lines.collect::<String>())
}

/// A run's messages in words, one line each: as `run` prints them and, with the values, what was sent or received on what.
pub fn show_log(bytes: &[u8], values: Option<&[u8]>) -> String {
    let values = values.map(read_values);
    let mut out = counted(bytes.len() / 5, "message", "messages") + "\n";
    out += &message_lines(bytes, values.as_ref().map(|(values, _)| values));
    out += &rest_line(bytes.len() % 5);
    if let Some((_, end)) = values.filter(|(_, end)| !end.is_empty()) {
        out += &format!("of the values: {end}");
    }
    out
}

/// The lines of a run's messages alone.
pub fn messages(log: &[u8], values: &[u8]) -> String {
    message_lines(log, Some(&read_values(values).0))
}

fn message_lines(log: &[u8], values: Option<&Values>) -> String {
    let line = |entry: &[u8]| {
        let (channel, value) = (usize::from(wide(entry, 1)), usize::from(wide(entry, 3)));
        let Some(direction) = DIRECTIONS.get(usize::from(entry[0])) else {
            return format!("malformed: {}: {}\n", hex(entry), unknown("direction", entry[0]));
        };
        let words = values.map(|values| format!("  {} on {}", values.value(value), values.value(channel)));
        format!("{direction} on {channel}: {value}{}\n", words.unwrap_or_default())
    };
    log.chunks_exact(5).map(line).collect()
}

/// The line for bytes that are left over after entries of five.
fn rest_line(rest: usize) -> String {
    match rest {
        0 => String::new(),
        _ => format!("{} left over: an entry has 5\n", counted(rest, "byte", "bytes")),
    }
}
