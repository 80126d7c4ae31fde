//! Reading a trace: numbers 1 to 6.

use std::collections::HashSet;

use crate::bytes::{check_mark, wide};
use crate::refusal::{Refusal, TRACE};
use crate::trace::{Trace, Value};

/// The trace, or its least fault among 1 to 6.
pub fn read_trace(bytes: &[u8]) -> Result<Trace, Refusal> {
    check_mark(bytes, b"SPX", 10, TRACE)?;
    let values = wide(bytes, 5);
    let supply = wide(bytes, 7);
    let starting = usize::from(bytes[9]);
    if values > 1024 || supply > 128 || starting > 96 {
        return Refusal::give(3, TRACE, 0);
    }
    let starting_offset = 10 + 5 * values;
    let supply_offset = starting_offset + 2 * starting;
    if bytes.len() != supply_offset + 2 * supply {
        return Refusal::give(4, TRACE, 0);
    }
    let trace = Trace {
        values: read_values(bytes, values)?,
        starting: read_indexes(bytes, starting_offset, starting, values)?,
        supply: read_indexes(bytes, supply_offset, supply, values)?,
    };
    no_equal_values(&trace)?;
    Ok(trace)
}

/// Number 5 among the values.
fn read_values(bytes: &[u8], count: usize) -> Result<Vec<Value>, Refusal> {
    let mut values = Vec::new();
    for i in 0..count {
        let offset = 10 + 5 * i;
        let a = wide(bytes, offset + 1);
        let b = wide(bytes, offset + 3);
        values.push(match bytes[offset] {
            0 if a <= 2 => Value::Atom { kind: a, number: b },
            1 if a < i && b < i => Value::Pair(a, b),
            2 if a < i && b < i => Value::Encrypted(a, b),
            _ => return Refusal::give(5, TRACE, offset),
        });
    }
    Ok(values)
}

/// Number 5 among the starting values or the supply.
fn read_indexes(bytes: &[u8], start: usize, count: usize, values: usize) -> Result<Vec<usize>, Refusal> {
    let mut indexes = Vec::new();
    for i in 0..count {
        let offset = start + 2 * i;
        if wide(bytes, offset) >= values {
            return Refusal::give(5, TRACE, offset);
        }
        indexes.push(wide(bytes, offset));
    }
    Ok(indexes)
}

/// Number 6. Parts are lower and, up to the first equal value, distinct: so equal values are equal entries.
fn no_equal_values(trace: &Trace) -> Result<(), Refusal> {
    let mut seen = HashSet::new();
    for (i, value) in trace.values.iter().enumerate() {
        if !seen.insert(value) {
            return Refusal::give(6, TRACE, i);
        }
    }
    Ok(())
}
