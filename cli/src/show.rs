//! `show FILE [--table TABLE] | [--values VALUES] [--log LOG]`: files in words.

use std::ffi::OsStr;

use mirvashol::Refusal;

use crate::asked::Asked;
use crate::input::Source;
use crate::output::{keep_apart, say, Trouble};
use crate::{Outcome, Status};

/// An index has 16 bits: no run's buffer has more entries than that can name.
const LONGEST_BUFFER: usize = 5 << 16;

pub fn show(asked: &Asked) -> Outcome {
    let file = asked.names.first().map(|name| name.as_os_str());
    let others = ["--table", "--values", "--log"].map(|option| asked.value(option));
    let named = |name: Option<&OsStr>| name.is_some();
    let [table, values, log] = others;
    if named(file) == (named(values) || named(log)) || (named(table) && !named(file)) {
        return Err(asked.wrong_use());
    }
    let sources = Source::all([file].into_iter().chain(others).flatten())?;
    keep_apart(&sources.iter().collect::<Vec<&Source>>(), &[])?;
    let (text, status) = match file {
        Some(name) => in_words(name, table)?,
        None => (of_run(values, log)?, Status::Fine),
    };
    say(text.as_bytes())?;
    Ok(status)
}

/// One of the three files, by its mark; status 1 where it is damaged.
fn in_words(name: &OsStr, table: Option<&OsStr>) -> Result<(String, Status), Trouble> {
    let source = Source::of(Some(name));
    // A list is the longest of the three.
    let file = source.read(mirvashol::LONGEST_LIST)?;
    let table = table.map(|name| Source::of(Some(name)).read_table()).transpose()?;
    let table = table.as_deref();
    let status = |damage: Option<Refusal>| damage.map_or(Status::Fine, |_| Status::Refused);
    Ok(match words::kind(&file) {
        Some(words::Kind::Table) => (words::table(&file), status(mirvashol::types(&file).err())),
        Some(words::Kind::List) => (words::list(&file, table), status(damage_of_list(&file, table))),
        Some(words::Kind::Trace) => (words::trace(&file, table), status(mirvashol::check_trace(&file).err())),
        None => {
            let line = format!(
                "{}: starts with none of the marks SPT (table), SPL (list) and SPX (trace)\n",
                source.name()
            );
            (line, Status::Refused)
        }
    })
}

/// The number, 1 to 5, for which a list is turned down by itself. Which registers there are depends on the table: without one, any may be.
fn damage_of_list(list: &[u8], table: Option<&[u8]>) -> Option<Refusal> {
    match table.map(|table| mirvashol::judge(table, list)) {
        Some(verdict) => verdict.err().filter(|refusal| refusal.file == 1 && refusal.number <= 5),
        None => mirvashol::check_list(list, usize::MAX).err(),
    }
}

/// The two files of a run.
fn of_run(values: Option<&OsStr>, log: Option<&OsStr>) -> Result<String, Trouble> {
    let values = values.map(entries).transpose()?;
    let log = log.map(entries).transpose()?;
    Ok(match (values, log) {
        (values, Some(log)) => words::log(&log, values.as_deref()),
        (Some(values), None) => words::values(&values),
        (None, None) => String::new(),
    })
}

/// A file of entries of five bytes.
fn entries(name: &OsStr) -> Result<Vec<u8>, Trouble> {
    let source = Source::of(Some(name));
    let bytes = source.read(LONGEST_BUFFER)?;
    if bytes.len() > LONGEST_BUFFER || bytes.len() % 5 != 0 {
        return Err(Trouble(format!(
            "{}: no file of a run: entries of five bytes",
            source.name()
        )));
    }
    Ok(bytes)
}
