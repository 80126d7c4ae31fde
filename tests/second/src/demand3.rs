//! Demand 3, checked on one run: what a run answered and wrote is compared with the process of Table 2 over the same supply.
//!
//! It takes the bytes that a run wrote, so it can check any implementation's run. It leaves the run's own code alone: the blamed
//! value is the one that the process binds, and whether it lacks its type is found by a walk along the type's bytes in the list.

use std::collections::HashMap;

use crate::bytes::wide;
use crate::judge::statements_due;
use crate::list::List;
use crate::process::{run_process, ProcessRun, Stuck};
use crate::read_list::type_of;
use crate::read_trace::read_trace;
use crate::refusal::Answer;
use crate::run::Message;
use crate::service::judged;
use crate::table::Table;
use crate::trace::{Trace, Value, CHANNEL, KEY};

/// Fine, or in words what demand 3 lacks. The table, list and trace are accepted ones; the buffers are as the run left them.
pub fn check(
    table: &[u8],
    list: &[u8],
    trace: &[u8],
    answer: &Answer,
    values: &[u8],
    log: &[u8],
) -> Result<(), String> {
    let list_bytes = list;
    let (table, list) = judged(table, list).map_err(|r| format!("not accepted: {r:?}"))?;
    let trace = read_trace(trace).map_err(|r| format!("trace refused: {r:?}"))?;
    let number = |i: usize| answer[i] as usize;
    let run = Run {
        ending: number(3),
        statement: number(4),
        used: number(5),
        messages: read_messages(log, number(6)),
        values: read_values(values, number(7))?,
    };
    let process = run_process(&table, &trace);
    values_sound(&trace, &run)?;
    messages_agree(&run, &process)?;
    ending_agrees(&table, &list, list_bytes, &trace, &run, &process)
}

struct Run {
    ending: usize,
    statement: usize,
    used: usize,
    messages: Vec<Message>,
    values: Vec<Value>,
}

fn demand(fact: bool, words: &str) -> Result<(), String> {
    if fact {
        Ok(())
    } else {
        Err(words.to_string())
    }
}

fn read_values(bytes: &[u8], count: usize) -> Result<Vec<Value>, String> {
    let mut values = Vec::new();
    for i in 0..count {
        let (a, b) = (wide(bytes, 5 * i + 1), wide(bytes, 5 * i + 3));
        values.push(match bytes[5 * i] {
            0 if a <= 2 => Value::Atom { kind: a, number: b },
            1 if a < i && b < i => Value::Pair(a, b),
            2 if a < i && b < i => Value::Encrypted(a, b),
            _ => return Err(format!("value {i} is malformed")),
        });
    }
    Ok(values)
}

fn read_messages(bytes: &[u8], count: usize) -> Vec<Message> {
    (0..count)
        .map(|i| Message {
            received: bytes[5 * i] == 1,
            channel: wide(bytes, 5 * i + 1),
            value: wide(bytes, 5 * i + 3),
        })
        .collect()
}

/// The trace's values come first, and no value stands there twice.
fn values_sound(trace: &Trace, run: &Run) -> Result<(), String> {
    demand(run.values.starts_with(&trace.values), "the trace's values come first")?;
    let mut seen = HashMap::new();
    for value in &run.values {
        demand(seen.insert(*value, ()).is_none(), "no value stands twice")?;
    }
    Ok(())
}

/// A number for each value of a table, equal for equal terms whatever table they stand in.
fn as_terms(values: &[Value], known: &mut HashMap<Value, usize>) -> Vec<usize> {
    let mut terms: Vec<usize> = Vec::new();
    for &value in values {
        let key = match value {
            Value::Atom { .. } => value,
            Value::Pair(a, b) => Value::Pair(terms[a], terms[b]),
            Value::Encrypted(a, b) => Value::Encrypted(terms[a], terms[b]),
        };
        let next = known.len();
        terms.push(*known.entry(key).or_insert(next));
    }
    terms
}

/// The list's messages, as terms, are the opening part of the process's; all of them unless the ending is 4, 5 or 7.
fn messages_agree(run: &Run, process: &ProcessRun) -> Result<(), String> {
    let mut known = HashMap::new();
    let in_run = as_terms(&run.values, &mut known);
    let in_process = as_terms(&process.values, &mut known);
    demand(
        run.messages.len() <= process.messages.len(),
        "no more messages than the process's",
    )?;
    for (ours, theirs) in run.messages.iter().zip(&process.messages) {
        demand(
            ours.received == theirs.received
                && in_run[ours.channel] == in_process[theirs.channel]
                && in_run[ours.value] == in_process[theirs.value],
            "each message is the process's",
        )?;
    }
    demand(
        matches!(run.ending, 4 | 5 | 7) || run.messages.len() == process.messages.len(),
        "all of the process's messages",
    )
}

fn ending_agrees(
    table: &Table,
    list: &List,
    list_bytes: &[u8],
    trace: &Trace,
    run: &Run,
    process: &ProcessRun,
) -> Result<(), String> {
    if run.ending == 0 {
        demand(run.statement == list.statements.len(), "N where finished")?;
        demand(process.stuck.is_none(), "finished only if the process finishes")?;
        let used = process.used.last().copied().unwrap_or(0);
        return demand(run.used == used, "finished with equal supplies used");
    }
    demand(run.statement < list.statements.len(), "stopped at a statement")?;
    let statement = list.statements[run.statement];
    demand(!statement.is_build(), "no build stops a list")?;
    let before = list.statements[..run.statement]
        .iter()
        .filter(|s| !s.is_build())
        .count();
    let step = statements_due(table)[before].step;
    demand(
        process.used.get(step) == Some(&run.used),
        "equal supplies used at that step",
    )?;
    let causes: &[Stuck] = match run.ending {
        1 => &[Stuck::Supply],
        2 => &[Stuck::Match],
        3 => &[Stuck::Decryption],
        6 => &[Stuck::Fresh],
        4 | 5 | 7 => {
            demand(
                process.stuck.is_none_or(|(at, _)| at > step),
                "the process passes the step of a type's ending",
            )?;
            let op_of_ending = [(4, 1), (5, 6), (7, 2)];
            demand(
                op_of_ending.contains(&(run.ending, statement.op)),
                "the ending belongs to the statement",
            )?;
            let blamed = process.symbols[statement.s].expect("the process passed the step");
            if run.ending != 5 {
                demand(
                    trace.supply.get(run.used - 1) == Some(&blamed),
                    "the blamed value is the last supply used",
                )?;
            }
            let (start, length) = type_of(list_bytes, statement.s);
            return demand(
                lacks_type(&process.values, blamed, &list_bytes[start..start + length]),
                "the blamed value truly lacks its type",
            );
        }
        _ => return Err(format!("ending {} is not one of 0 to 7", run.ending)),
    };
    demand(
        process
            .stuck
            .is_some_and(|(at, why)| at == step && causes.contains(&why)),
        "the process is stuck at that very step for that cause",
    )
}

/// Whether the value lacks the type, by a walk along the type's bytes with the values still to be looked at.
fn lacks_type(values: &[Value], value: usize, wanted: &[u8]) -> bool {
    let mut pending = vec![Some(value)];
    for byte in wanted {
        let next = pending.pop().expect("the bytes are exactly one type");
        // A type inside a ciphertext type asks nothing; its bytes are passed over.
        let Some(index) = next else {
            match byte {
                4 => pending.extend([None, None]),
                5 => pending.push(None),
                _ => {}
            }
            continue;
        };
        let fits = match (byte, values[index]) {
            (0, _) => true,
            (1, value) => value.is_atom(),
            (2, Value::Atom { kind, .. }) => kind == CHANNEL,
            (3, Value::Atom { kind, .. }) => kind == KEY,
            (4, Value::Pair(left, right)) => {
                pending.extend([Some(right), Some(left)]);
                true
            }
            (5, Value::Encrypted(_, _)) => {
                pending.push(None);
                true
            }
            _ => false,
        };
        if !fits {
            return true;
        }
    }
    false
}
