//! Reading a statement list: numbers 1 to 5, given the number of free symbols; and handing out the type of a symbol.

use crate::bytes::{check_mark, wide};
use crate::list::{gives_register, List, Statement};
use crate::refusal::{Refusal, LIST};
use crate::types::Type;

/// The list, or its least fault among 1 to 5.
pub fn read_list(bytes: &[u8], free: usize) -> Result<List, Refusal> {
    let layout = check_header(bytes)?;
    let types = check_types(bytes, &layout)?;
    let first_statement = layout.first_statement;
    let mut registers = free;
    let mut statements = Vec::new();
    for i in 0..layout.statements {
        let offset = first_statement + 4 * i;
        let entry = &bytes[offset..offset + 4];
        if !statement_is_fine(entry, registers, types.len()) {
            return Refusal::give(5, LIST, offset);
        }
        if gives_register(entry[0]) {
            registers = registers.saturating_add(1);
        }
        statements.push(Statement::new(
            entry[0],
            usize::from(entry[1]),
            usize::from(entry[2]),
            usize::from(entry[3]),
        ));
    }
    Ok(List {
        types,
        statements,
        first_statement,
    })
}

/// Where the type entries stand, how many statements there are and where the first one stands.
struct Layout {
    types: Vec<usize>,
    statements: usize,
    first_statement: usize,
}

/// Numbers 1 to 4. The types are walked by their length bytes alone.
fn check_header(bytes: &[u8]) -> Result<Layout, Refusal> {
    check_mark(bytes, b"SPL", 8, LIST)?;
    let symbols = usize::from(bytes[5]);
    let statements = wide(bytes, 6);
    if symbols > 96 || statements > 512 {
        return Refusal::give(3, LIST, 0);
    }
    let mut types = Vec::new();
    let mut offset = 8;
    for _ in 0..symbols {
        if offset >= bytes.len() {
            return Refusal::give(4, LIST, 0);
        }
        types.push(offset);
        offset += 1 + usize::from(bytes[offset]);
    }
    if bytes.len() != offset + 4 * statements {
        return Refusal::give(4, LIST, 0);
    }
    Ok(Layout {
        types,
        statements,
        first_statement: offset,
    })
}

/// Number 5 among the types.
fn check_types(bytes: &[u8], layout: &Layout) -> Result<Vec<Type>, Refusal> {
    let mut types = Vec::new();
    for &offset in &layout.types {
        let length = usize::from(bytes[offset]);
        match Type::read(&bytes[offset + 1..offset + 1 + length]) {
            Some(found) => types.push(found),
            None => return Refusal::give(5, LIST, offset),
        }
    }
    Ok(types)
}

fn statement_is_fine(entry: &[u8], registers: usize, symbols: usize) -> bool {
    let (p, q, s) = (usize::from(entry[1]), usize::from(entry[2]), usize::from(entry[3]));
    let register = |r: usize| r < registers;
    let symbol = |s: usize| s < symbols;
    match entry[0] {
        0 | 3 => register(p) && register(q) && s == 0,
        1 => register(p) && q == 0 && symbol(s),
        2 => p == 0 && q == 0 && symbol(s),
        4 | 5 => register(p) && q == 0 && symbol(s),
        6 => register(p) && register(q) && symbol(s),
        7 | 8 => register(p) && register(q) && s == 0,
        _ => false,
    }
}

/// The part of the list that holds the symbol's type, as start and length; 0 0 where it is empty.
/// It is empty exactly if the list has a fault 1 to 4 or any malformed type, or lacks the symbol.
pub fn type_of(bytes: &[u8], symbol: usize) -> (usize, usize) {
    let Ok(layout) = check_header(bytes) else {
        return (0, 0);
    };
    if check_types(bytes, &layout).is_err() {
        return (0, 0);
    }
    match layout.types.get(symbol) {
        Some(&offset) => (offset + 1, usize::from(bytes[offset])),
        None => (0, 0),
    }
}
