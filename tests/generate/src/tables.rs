//! Tables of a named kind. Typed ones come from the builder; symbols and terms are then put into another order.

use second::types::Type;

use crate::builder::{some_type, Builder, Limits};
use crate::kind::TableKind;
use crate::raw::{symbol_fields, term_fields, RawTable};
use crate::rng::Rng;
use crate::table_faults;
use crate::untyped;

pub const MOST: Limits = Limits {
    symbols: 96,
    terms: 128,
    steps: 64,
};

/// A table of this kind.
pub fn table(rng: &mut Rng, kind: TableKind) -> Vec<u8> {
    match kind {
        TableKind::Fault(10) => untyped::untyped(rng).bytes(),
        TableKind::Fault(number) => table_faults::faulty(rng, number),
        _ => typed(rng, kind).bytes(),
    }
}

/// A typed table, of any kind and size.
pub fn some_typed(rng: &mut Rng) -> Vec<u8> {
    let kind = some_typed_kind(rng);
    table(rng, kind)
}

/// Small ones mostly.
pub fn some_typed_kind(rng: &mut Rng) -> TableKind {
    match rng.below(20) {
        0 => TableKind::Tiny,
        1..=3 => TableKind::Any,
        4 => TableKind::Full,
        5 => TableKind::Shared,
        6 => TableKind::LargeType,
        _ => TableKind::Small,
    }
}

/// A typed table of this kind, as entries.
pub fn typed(rng: &mut Rng, kind: TableKind) -> RawTable {
    let raw = match kind {
        TableKind::Tiny => {
            let limits = some_limits(rng, 4, 6, 2);
            grow(rng, limits, 1)
        }
        TableKind::Any => {
            let limits = some_limits(rng, MOST.symbols, MOST.terms, MOST.steps);
            let depth = rng.within(0, 4);
            grow(rng, limits, depth)
        }
        TableKind::Full => full(rng),
        TableKind::Shared => shared(rng),
        TableKind::LargeType => large_type(rng),
        _ => {
            let limits = some_limits(rng, 24, 30, 12);
            let depth = rng.within(0, 3);
            grow(rng, limits, depth)
        }
    };
    in_another_order(rng, &raw)
}

/// A typed table with at least one symbol, term and step, and room for a few more of each.
pub fn with_room(rng: &mut Rng) -> RawTable {
    loop {
        let mut limits = some_limits(rng, 24, 30, 12);
        if rng.once_in(8) {
            limits = some_limits(rng, 88, 116, 56);
        }
        let raw = grow(rng, limits, 2);
        if !raw.terms.is_empty() && !raw.steps.is_empty() {
            return in_another_order(rng, &raw);
        }
    }
}

fn some_limits(rng: &mut Rng, symbols: usize, terms: usize, steps: usize) -> Limits {
    Limits {
        symbols: rng.within(0, symbols),
        terms: rng.within(0, terms),
        steps: rng.within(0, steps),
    }
}

/// Steps that fit, as long as there is room; a few tries more where there is none.
fn grow(rng: &mut Rng, limits: Limits, depth: usize) -> RawTable {
    let mut builder = Builder::new(limits);
    for _ in 0..rng.within(0, 3) {
        let plan = some_type(rng, 1 + depth);
        builder.symbol(u8::from(!plan.below(&Type::Name)), plan);
    }
    add_steps(rng, &mut builder, limits.steps, depth);
    let unused = rng.within(0, 2);
    for _ in 0..unused {
        builder.symbol(rng.below(2) as u8, Type::ShKey);
    }
    builder.raw
}

fn add_steps(rng: &mut Rng, builder: &mut Builder, steps: usize, depth: usize) {
    let mut tries = 8;
    while builder.raw.steps.len() < steps && tries > 0 {
        if !builder.step(rng, depth) {
            tries -= 1;
        }
    }
}

/// Every count at its limit.
fn full(rng: &mut Rng) -> RawTable {
    let mut builder = Builder::new(Limits {
        symbols: rng.within(1, MOST.symbols),
        terms: rng.within(1, MOST.terms - 1),
        steps: MOST.steps - 1,
    });
    let first = builder.symbol(0, Type::Name).expect("room for one symbol");
    let first = builder.symbol_term(first).expect("room for one term");
    builder.raw.steps.push([3, first as u8, first as u8, 0, 0]);
    add_steps(rng, &mut builder, MOST.steps - 1, 2);
    while builder.raw.steps.len() < MOST.steps - 1 {
        let (a, b) = (rng.below(builder.raw.terms.len()), rng.below(builder.raw.terms.len()));
        builder.raw.steps.push([3, a as u8, b as u8, 0, 0]);
    }
    builder.limits = MOST;
    chain(rng, &mut builder);
    while builder.symbol(rng.below(2) as u8, Type::ShKey).is_some() {}
    builder.raw
}

/// Few steps, and terms that share their parts up to the limit.
fn shared(rng: &mut Rng) -> RawTable {
    let mut builder = Builder::new(Limits {
        symbols: 20,
        terms: 20,
        steps: 8,
    });
    builder.symbol(0, Type::ShKey);
    add_steps(rng, &mut builder, 8, 1);
    builder.limits = MOST;
    builder.limits.terms = rng.within(60, MOST.terms);
    chain(rng, &mut builder);
    builder.raw
}

/// Fills the terms up: each new one has the newest one as a part, so it is not there yet. One step uses the last.
fn chain(rng: &mut Rng, builder: &mut Builder) {
    let symbol = builder.raw.symbols.iter().position(|&sort| sort == 0).unwrap_or(0);
    if builder.symbol_term(symbol).is_none() {
        return;
    }
    let count = builder.raw.terms.len();
    let mut newest = count - 1;
    while builder.raw.terms.len() < builder.limits.terms {
        let other = if rng.once_in(3) { rng.below(count) } else { newest };
        let parts = if rng.once_in(2) {
            [newest, other]
        } else {
            [other, newest]
        };
        newest = builder
            .term([1, parts[0] as u8, parts[1] as u8])
            .expect("there is room");
    }
    let other = if rng.once_in(2) { newest } else { rng.below(count) };
    builder.raw.steps.push([3, newest as u8, other as u8, 0, 0]);
}

/// One free variable of a large planned type, and steps that take it apart.
fn large_type(rng: &mut Rng) -> RawTable {
    let mut builder = Builder::new(MOST);
    let size = rng.within(20, 60);
    builder.symbol(0, Type::ShKey);
    builder.symbol(1, some_type(rng, size));
    while builder.raw.steps.len() < MOST.steps {
        match builder.undone_if_none(|b| b.take_apart(rng)) {
            Some(entry) => builder.raw.steps.push(entry),
            None => break,
        }
    }
    add_steps(rng, &mut builder, MOST.steps, 1);
    builder.raw
}

/// The same table with its symbols and terms in another order, parts still lower.
pub fn in_another_order(rng: &mut Rng, raw: &RawTable) -> RawTable {
    let mut symbols: Vec<usize> = (0..raw.symbols.len()).collect();
    rng.shuffle(&mut symbols);
    let mut new_symbols = vec![0; symbols.len()];
    for (old, &new) in symbols.iter().enumerate() {
        new_symbols[new] = raw.symbols[old];
    }
    let new_symbol = |s: u8| symbols[usize::from(s)] as u8;

    let mut place: Vec<Option<u8>> = vec![None; raw.terms.len()];
    let mut terms = Vec::new();
    while terms.len() < raw.terms.len() {
        let placed = |t: u8| place[usize::from(t)].is_some();
        let ready: Vec<usize> = (0..raw.terms.len())
            .filter(|&t| place[t].is_none())
            .filter(|&t| raw.terms[t][0] == 0 || (placed(raw.terms[t][1]) && placed(raw.terms[t][2])))
            .collect();
        let next = rng.pick(&ready);
        let [code, a, b] = raw.terms[next];
        let at = |t: u8| place[usize::from(t)].expect("placed");
        terms.push(if code == 0 {
            [0, new_symbol(a), 0]
        } else {
            [code, at(a), at(b)]
        });
        place[next] = Some((terms.len() - 1) as u8);
    }

    let new_term = |t: u8| place[usize::from(t)].expect("placed");
    let steps = raw.steps.iter().map(|&[op, a, b, x, y]| {
        let (uses_a, uses_b) = term_fields(op);
        let (uses_x, uses_y) = symbol_fields(op);
        [
            op,
            if uses_a { new_term(a) } else { 0 },
            if uses_b { new_term(b) } else { 0 },
            if uses_x { new_symbol(x) } else { 0 },
            if uses_y { new_symbol(y) } else { 0 },
        ]
    });
    RawTable {
        symbols: new_symbols,
        steps: steps.collect(),
        terms,
    }
}
