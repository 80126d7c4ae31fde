//! Tables, lists, traces, runs and refusals in words, for people.
//!
//! Every function takes any bytes, of any length, and answers. What is well formed is shown up to the first entry that is not. Terms
//! and values are shared graphs, so that each is written in a bounded length. Every answer that is not empty ends with a line feed,
//! but for `ending`.
//!
//! `codes` has all codes of the three files as data. `table`, `list` and `trace` read and show them; `judging` holds a list against
//! its table; `refusal` says what a refusal means, and `clash` which demands leave a table without types. `library` is all that is
//! asked of the proved library: refusals and widest types.

mod clash;
mod codes;
mod entries;
mod judging;
mod library;
mod list;
mod refusal;
mod table;
mod trace;
mod writing;

#[cfg(test)]
mod tests;

use library::Refusal;

/// The three files, as a refusal numbers them.
#[derive(Clone, Copy, PartialEq, Eq, Debug)]
pub enum Kind {
    Table,
    List,
    Trace,
}

/// The kind of a file, by its three-letter mark.
pub fn kind(bytes: &[u8]) -> Option<Kind> {
    entries::kind(bytes)
}

/// The files at hand.
struct Files<'a> {
    table: Option<&'a [u8]>,
    list: Option<&'a [u8]>,
    trace: Option<&'a [u8]>,
}

impl<'a> Files<'a> {
    fn table(table: &'a [u8]) -> Files<'a> {
        Files {
            table: Some(table),
            list: None,
            trace: None,
        }
    }
}

/// Lines, each ended by a line feed.
fn joined(lines: Vec<String>) -> String {
    lines.into_iter().map(|line| line + "\n").collect()
}

/// A refusal's line, then what it means, indented.
fn refused(refusal: Refusal, files: &Files) -> String {
    let Refusal { number, file, place } = refusal;
    let lines = refusal::lines(refusal, files)
        .into_iter()
        .map(|line| format!("  {line}"));
    format!("refused {number} {file} {place}\n{}", joined(lines.collect()))
}

/// A table: symbols with sort, free or bound, and widest type; terms; steps.
pub fn table(table: &[u8]) -> String {
    table::show(table)
}

/// A list: types; statements with the registers that they give and, with a table, what each register means.
pub fn list(list: &[u8], table: Option<&[u8]>) -> String {
    list::show(list, table)
}

/// A trace: values as terms, starting values and supply; with a table, the free symbol of each starting value.
pub fn trace(trace: &[u8], table: Option<&[u8]>) -> String {
    trace::show(trace, table)
}

/// A run's value buffer, 5 bytes each.
pub fn values(values: &[u8]) -> String {
    trace::show_values(values)
}

/// A run's message buffer, 5 bytes each; with the values, what was sent or received on what.
pub fn log(log: &[u8], values: Option<&[u8]>) -> String {
    trace::show_log(log, values)
}

/// One line a symbol of a table: index, name or variable, free or bound, and its type of these.
pub fn types(table: &[u8], types: &[Vec<u8>]) -> String {
    table::types(table, types)
}

/// What a refusal means for these files, in lines without indentation; nothing where nothing can be added.
pub fn refusal(number: u64, file: u64, place: u64, table: &[u8], list: Option<&[u8]>, trace: Option<&[u8]>) -> String {
    let files = Files {
        table: Some(table),
        list,
        trace,
    };
    joined(refusal::lines(Refusal { number, file, place }, &files))
}

/// One line a message of a run: `sent on 0: 7`, by places in the value table, then the value on its channel written out.
pub fn messages(log: &[u8], values: &[u8]) -> String {
    trace::messages(log, values)
}

/// An ending in words.
pub fn ending(number: u64) -> &'static str {
    let index = usize::try_from(number).unwrap_or(usize::MAX);
    codes::ENDINGS.get(index).copied().unwrap_or("?")
}

/// The statement at which a run stopped, and its step; nothing where there is no such statement.
pub fn stopped(table: &[u8], list: &[u8], statement: usize) -> String {
    let table = table::Table::read(table);
    let list = list::List::read(list, Some(table.free().len()));
    joined(judging::Judging::new(&table, &list).stopped(statement))
}
