//! The services, as the static library offers them: eight numbers as the answer, and lent buffers that a refusal leaves alone.

use crate::judge;
use crate::list::List;
use crate::read_list::{self, read_list};
use crate::read_table::read_table;
use crate::read_trace::read_trace;
use crate::refusal::{answer, Answer, Refusal, BUFFER, LIST};
use crate::run;
use crate::table::Table;
use crate::translate::list_bytes;
use crate::types::{entries, Type};
use crate::typing::widest_typing;

/// A table and its widest types, or the least of 1 to 10.
pub fn typed_table(table: &[u8]) -> Result<(Table, Vec<Type>), Refusal> {
    let table = read_table(table)?;
    let types = widest_typing(&table)?;
    Ok((table, types))
}

/// A table and an accepted list, or the least of the table's 1 to 10, the list's 1 to 5, and 11 to 13.
pub fn judged(table: &[u8], list: &[u8]) -> Result<(Table, List), Refusal> {
    let (table, types) = typed_table(table)?;
    let list = read_list(list, table.free().len())?;
    judge::judge(&table, &types, &list)?;
    Ok((table, list))
}

/// Writes the bytes at the start of the lent buffer, or number 15.
fn lend(out: &mut [u8], bytes: &[u8]) -> Result<Vec<u64>, Refusal> {
    if out.len() < bytes.len() {
        return Refusal::give(15, BUFFER, bytes.len());
    }
    out[..bytes.len()].copy_from_slice(bytes);
    Ok(vec![bytes.len() as u64])
}

/// Types a table: the S types with their length bytes.
pub fn type_table(table: &[u8], out: &mut [u8]) -> Answer {
    answer(typed_table(table).and_then(|(_, types)| lend(out, &entries(&types))))
}

/// Compiles a table: the list's bytes.
pub fn compile(table: &[u8], out: &mut [u8]) -> Answer {
    answer(typed_table(table).and_then(|(table, types)| lend(out, &list_bytes(&table, &types))))
}

/// Judges a list against a table.
pub fn judge(table: &[u8], list: &[u8]) -> Answer {
    answer(judged(table, list).map(|_| vec![]))
}

/// The most lists that one call takes.
const SHELF: usize = 64;

/// Judges lists that are laid end to end, of these lengths. For each list four bytes are written: number, file and 16-bit place, or
/// zeros where judging it by itself refuses nothing.
pub fn judge_shelf(table: &[u8], lists: &[u8], lengths: &[u64], verdicts: &mut [u8]) -> Answer {
    answer(shelf_result(table, lists, lengths, verdicts))
}

fn shelf_result(table: &[u8], lists: &[u8], lengths: &[u64], verdicts: &mut [u8]) -> Result<Vec<u64>, Refusal> {
    typed_table(table)?;
    if lengths.len() > SHELF {
        return Refusal::give(3, LIST, 0);
    }
    // Any sum of 64 lengths fits 128 bits.
    let sum: u128 = lengths.iter().map(|&length| u128::from(length)).sum();
    if sum != lists.len() as u128 {
        return Refusal::give(4, LIST, 0);
    }
    let mut rest = lists;
    let mut bytes = Vec::new();
    for &length in lengths {
        let (list, after) = rest.split_at(length as usize);
        rest = after;
        bytes.extend(judged(table, list).map_or_else(|refusal| refusal.bytes(), |_| [0; 4]));
    }
    lend(verdicts, &bytes)
}

/// Runs a judged list on a trace: ending, statement index, supplies used, messages logged, values in the table.
pub fn run(table: &[u8], list: &[u8], trace: &[u8], values: &mut [u8], log: &mut [u8]) -> Answer {
    answer(run_result(table, list, trace, values, log))
}

fn run_result(table: &[u8], list: &[u8], trace: &[u8], values: &mut [u8], log: &mut [u8]) -> Result<Vec<u64>, Refusal> {
    let (table, list) = judged(table, list)?;
    let trace = read_trace(trace)?;
    run::check_start(&table, &list, &trace)?;
    run::check_buffers(&list, &trace, values.len(), log.len())?;
    let outcome = run::run(&list, &trace);
    for (i, value) in outcome.values.iter().enumerate() {
        values[5 * i..5 * i + 5].copy_from_slice(&value.bytes());
    }
    for (i, message) in outcome.messages.iter().enumerate() {
        log[5 * i..5 * i + 5].copy_from_slice(&message.bytes());
    }
    Ok(vec![
        u64::from(outcome.ending),
        outcome.statement as u64,
        outcome.used as u64,
        outcome.messages.len() as u64,
        outcome.values.len() as u64,
    ])
}

/// The part of the list that holds the symbol's type: start and length. It refuses nothing.
pub fn type_of(list: &[u8], symbol: usize) -> Answer {
    let (start, length) = read_list::type_of(list, symbol);
    answer(Ok(vec![start as u64, length as u64]))
}

/// Reads a table: S, T and P.
pub fn check_table(table: &[u8]) -> Answer {
    answer(read_table(table).map(|t| vec![t.symbols.len() as u64, t.terms.len() as u64, t.steps.len() as u64]))
}

/// Reads a list, given the number of free symbols: S, N and the offset of the first statement.
pub fn check_list(list: &[u8], free: usize) -> Answer {
    answer(read_list(list, free).map(|l| {
        vec![
            l.types.len() as u64,
            l.statements.len() as u64,
            l.first_statement as u64,
        ]
    }))
}

/// Reads a trace: V, K and F.
pub fn check_trace(trace: &[u8]) -> Answer {
    answer(read_trace(trace).map(|t| vec![t.values.len() as u64, t.supply.len() as u64, t.starting.len() as u64]))
}
