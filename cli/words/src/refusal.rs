//! What a refusal means for the files at hand. Each line is said only where the files bear it out.

use crate::clash;
use crate::codes::{find, TermCode, SORTS};
use crate::entries::{byte, Fault};
use crate::judging::{Judging, Verdict};
use crate::library::{self, Refusal};
use crate::list::{builds_and_messages, List};
use crate::table::Table;
use crate::trace::Trace;
use crate::writing::{counted, short_type};
use crate::Files;

const TABLE: u64 = 0;
const LIST: u64 = 1;
const TRACE: u64 = 2;
const BUFFER: u64 = 3;

/// The lines for a refusal; none where nothing can be added.
pub fn lines(refusal: Refusal, files: &Files) -> Vec<String> {
    let Refusal { number, file, place } = refusal;
    let found = match (number, file) {
        (1..=10, TABLE) => of_table(refusal, files.table),
        (1..=5, LIST) => of_list(refusal, files),
        (1..=6, TRACE) => of_trace(refusal, files.trace),
        (11..=13, LIST) => of_judging(refusal, files),
        (14, TRACE) => of_start(place, files),
        (15, BUFFER) => Some(of_room(place, files)),
        _ => None,
    };
    found.unwrap_or_default()
}

/// The lines of a reader's fault, if it is the refusal's.
fn of_fault(refusal: Refusal, fault: Option<Fault>) -> Option<Vec<String>> {
    let fault = fault.filter(|fault| fault.number == refusal.number && fault.place == refusal.place);
    fault.map(|fault| fault.lines)
}

/// Numbers 1 to 10.
fn of_table(refusal: Refusal, bytes: Option<&[u8]>) -> Option<Vec<String>> {
    let table = Table::read(bytes?);
    if refusal.number <= 5 {
        return of_fault(refusal, table.fault);
    }
    // What is said of terms, steps and types takes everything before for granted.
    if library::types(bytes?).err() != Some(refusal) {
        return None;
    }
    let place = usize::try_from(refusal.place).ok()?;
    let lines = match refusal.number {
        6 => vec![equal_terms(&table, place)?],
        7 => vec![format!(
            "term {place}, {}, is named by no step and by no other term",
            table.term(place)
        )],
        8 => bound_again(&table, place)?,
        9 => used_early(&table, place)?,
        _ => {
            let clash = clash::clash(&table, place)?;
            clash::lines(&table, &clash)
        }
    };
    Some(lines)
}

/// Number 6.
fn equal_terms(table: &Table, place: usize) -> Option<String> {
    let same = |a: &(&TermCode, [usize; 2]), b: &(&TermCode, [usize; 2])| a.0.code == b.0.code && a.1 == b.1;
    let term = table.terms.get(place)?;
    let first = table.terms.iter().position(|other| same(other, term))?;
    Some(format!("term {place}, {}, is term {first} again", table.term(place)))
}

/// Number 8.
fn bound_again(table: &Table, place: usize) -> Option<Vec<String>> {
    let bound: Vec<usize> = table.steps.get(place)?.binds().collect();
    let before = |symbol: usize| table.bound_by(symbol).filter(|&step| step < place);
    let line = bound.iter().enumerate().find_map(|(i, &symbol)| match before(symbol) {
        Some(step) => Some(format!("it binds s{symbol}, which step {step} binds already")),
        None if bound[..i].contains(&symbol) => Some(format!("it binds s{symbol} twice")),
        None => None,
    });
    Some(table.step_line(place).into_iter().chain(line).collect())
}

/// Number 9.
fn used_early(table: &Table, place: usize) -> Option<Vec<String>> {
    let step = *table.steps.get(place)?;
    let line = step.terms().find_map(|top| {
        let held = table.held_by(std::iter::once(top));
        let symbols = table
            .terms
            .iter()
            .enumerate()
            .filter(|&(term, (row, _))| held[term] && row.gives.is_none());
        let mut symbols = symbols.map(|(_, (_, fields))| fields[0]);
        let late = symbols.find_map(|symbol| {
            let step = table.bound_by(symbol)?;
            (step >= place).then_some((symbol, step))
        });
        let (symbol, bound) = late?;
        let term = table.term(top);
        let uses = match term == format!("s{symbol}") {
            true => format!("it uses s{symbol}"),
            false => format!("it uses s{symbol}, inside {term}"),
        };
        Some(match bound == place {
            true => format!("{uses}, which it binds itself"),
            false => format!("{uses}, which only step {bound} binds"),
        })
    });
    Some(table.step_line(place).into_iter().chain(line).collect())
}

/// Numbers 1 to 5 of a list. Registers are tested where a table says how many free symbols there are.
fn of_list(refusal: Refusal, files: &Files) -> Option<Vec<String>> {
    let table = files.table.map(Table::read).filter(|table| table.fault.is_none());
    let list = List::read(files.list?, table.map(|table| table.free().len()));
    of_fault(refusal, list.fault)
}

/// Numbers 1 to 6 of a trace.
fn of_trace(refusal: Refusal, bytes: Option<&[u8]>) -> Option<Vec<String>> {
    let trace = Trace::read(bytes?);
    if refusal.number <= 5 {
        return of_fault(refusal, trace.fault);
    }
    let place = usize::try_from(refusal.place).ok()?;
    let value = trace.values.all.get(place)?;
    let first = trace.values.all.iter().position(|other| other == value)?;
    (first < place).then(|| {
        vec![format!(
            "value {place}, {}, is value {first} again",
            trace.values.value(place)
        )]
    })
}

/// Numbers 11 to 13, of a table without faults and a list without the faults 1 to 5.
fn of_judging(refusal: Refusal, files: &Files) -> Option<Vec<String>> {
    let widest = library::types(files.table?).ok()?;
    let table = Table::read(files.table?);
    let list = List::read(files.list?, Some(table.free().len()));
    if list.fault.is_some() {
        return None;
    }
    let place = usize::try_from(refusal.place).ok()?;
    if refusal.number == 11 {
        return wrong_types(&table, &widest, &list, place);
    }
    let judging = Judging::new(&table, &list);
    match judging.verdict() {
        Verdict::NotDue { statement, done } if refusal.number == 12 && statement == place => {
            Some(judging.not_due(statement, done))
        }
        Verdict::Early { done } if refusal.number == 13 && judging.step_due(done) == Some(place) => {
            Some(judging.early(done))
        }
        _ => None,
    }
}

/// Number 11.
fn wrong_types(table: &Table, widest: &[Vec<u8>], list: &List, place: usize) -> Option<Vec<String>> {
    if let (Some(wanted), Some(there)) = (widest.get(place), list.types.get(place)) {
        let sort = find(SORTS, byte(&table.sorts, place), table.version)?.word;
        return (wanted != there).then(|| {
            vec![
                format!(
                    "s{place}, a {sort}: the list's type is {}",
                    short_type(there, list.version)
                ),
                format!("its widest type in the table is {}", short_type(wanted, table.version)),
            ]
        });
    }
    let (types, symbols) = (list.types.len(), widest.len());
    (types != symbols && place == types.min(symbols)).then(|| {
        let types = counted(types, "type", "types");
        vec![format!(
            "the list has {types}, and the table {}",
            counted(symbols, "symbol", "symbols")
        )]
    })
}

/// Number 14.
fn of_start(place: u64, files: &Files) -> Option<Vec<String>> {
    let types = library::types(files.table?).ok()?;
    let table = Table::read(files.table?);
    let trace = Trace::read(files.trace?);
    if trace.fault.is_some() {
        return None;
    }
    let place = usize::try_from(place).ok()?;
    let free = table.free();
    let (values, symbols) = (trace.starting.len(), free.len());
    if values != symbols {
        let names: Vec<String> = free.iter().map(|symbol| format!("s{symbol}")).collect();
        let which = if names.is_empty() {
            String::new()
        } else {
            format!(": {}", names.join(", "))
        };
        let there = counted(values, "starting value", "starting values");
        let wanted = counted(symbols, "free symbol", "free symbols");
        return (place == values.min(symbols))
            .then(|| vec![format!("the trace has {there}, and the table {wanted}{which}")]);
    }
    let (&symbol, &value) = (free.get(place)?, trace.starting.get(place)?);
    let wanted = types.get(symbol)?;
    (!trace.values.visibly_has(value, wanted)).then(|| {
        let (wanted, value_words) = (short_type(wanted, table.version), trace.values.value(value));
        vec![
            format!("starting value {place} is for s{symbol}, whose type is {wanted}"),
            format!("it is value {value}, {value_words}, which lacks that type"),
        ]
    })
}

/// Number 15. Which buffer it is shows only for a run.
fn of_room(place: u64, files: &Files) -> Vec<String> {
    let mut lines = vec![match place {
        1 => "the buffer needs 1 byte".to_string(),
        _ => format!("the buffer needs {place} bytes"),
    }];
    if let (Some(table), Some(list), Some(trace)) = (files.table, files.list, files.trace) {
        let free = Table::read(table).free().len();
        let (builds, messages) = builds_and_messages(&List::read(list, Some(free)));
        let values = Trace::read(trace).values.all.len();
        let (for_values, for_log) = (5 * (values + builds) as u64, 5 * messages as u64);
        let values = format!(
            "it is that of the values: {} and {}",
            counted(values, "value", "values"),
            counted(builds, "build", "builds")
        );
        let log = format!(
            "it is that of the messages: {}",
            counted(messages, "send or receive", "sends and receives")
        );
        lines.extend(match (place == for_values, place == for_log) {
            (true, false) => Some(values + ", 5 bytes each"),
            (false, true) => Some(log + ", 5 bytes each"),
            _ => None,
        });
    }
    lines
}
