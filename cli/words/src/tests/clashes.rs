//! Number 10: what is said to clash does, by the second implementation's typing, and nothing less would.

use generate::raw::RawTable;
use generate::{tables, Rng, TableKind};
use second::read_table::read_table;
use second::table::Table;
use second::types::Type;
use second::typing::widest_typing;

use crate::clash::{self, Clash, Side, Thing, Why};
use crate::library;

/// The typing of just these steps of a table.
fn typing(table: &Table, steps: &[usize]) -> Option<Vec<Type>> {
    let mut fewer = table.clone();
    fewer.steps = steps.iter().map(|&step| table.steps[step]).collect();
    widest_typing(&fewer).ok()
}

/// The widest type of a code.
fn widest(code: u8) -> Type {
    match code {
        0 => Type::Message,
        1 => Type::Name,
        2 => Type::Channel,
        3 => Type::ShKey,
        4 => Type::pair(Type::Message, Type::Message),
        5 => Type::cipher(Type::Message),
        _ => panic!("no code {code}"),
    }
}

/// The part of a type that a path of words leads to.
fn part<'a>(whole: &'a Type, path: &[&str]) -> &'a Type {
    path.iter().fold(whole, |here, &word| match (here, word) {
        (Type::Pair(left, _), "left part") => left,
        (Type::Pair(_, right), "right part") => right,
        (Type::Cipher(inside), "inside") => inside,
        _ => panic!("no {word} in {here:?}"),
    })
}

fn in_order(mut steps: Vec<usize>) -> Vec<usize> {
    steps.sort_unstable();
    steps.dedup();
    steps
}

/// A side by itself wants what it says: its steps alone put the part below its type.
fn side_holds(table: &Table, clash: &Clash, side: &Side, all: &[usize]) {
    let steps = in_order(side.why.steps());
    match (&clash.thing, &*side.why) {
        (&Thing::Symbol(symbol), Why::Sort) => {
            assert!(clash.path.is_empty() && side.code == 1 && table.symbols[symbol] == second::table::Sort::Name);
        }
        (&Thing::Term(term), Why::Shape) => match table.terms[term] {
            second::table::Term::Symbol(_) => panic!("a symbol has no shape of its own"),
            second::table::Term::Pair(..) => assert_eq!(side.code, 4),
            second::table::Term::Encrypted(..) => assert_eq!(side.code, 5),
        },
        // A term's shape is always there, so that the other side's steps have no typing even alone.
        (Thing::Term(_), _) => assert!(typing(table, &steps).is_none()),
        (&Thing::Symbol(symbol), _) => match typing(table, &steps) {
            Some(types) => assert!(part(&types[symbol], &clash.path).below(&widest(side.code))),
            // Its steps make both demands, or clash with the sort.
            None => assert_eq!(steps.len(), all.len()),
        },
    }
}

/// Everything that is said of a table with number 10; the number of steps that clash.
fn holds(bytes: &[u8]) -> usize {
    let table = read_table(bytes).expect("none of the faults 1 to 9");
    let refusal = library::types(bytes).expect_err("number 10");
    assert_eq!((refusal.number, refusal.file), (10, 0));
    let place = refusal.place as usize;
    let ours = crate::table::Table::read(bytes);
    let clash = clash::clash(&ours, place).expect("a clash");
    let steps = in_order(clash.sides.iter().flat_map(|side| side.why.steps()).collect());
    // The steps have no typing, the place is among them, and without any one of them the others have one.
    assert!(steps.contains(&place));
    assert!(typing(&table, &steps).is_none());
    for dropped in &steps {
        let fewer: Vec<usize> = steps.iter().copied().filter(|step| step != dropped).collect();
        assert!(typing(&table, &fewer).is_some());
    }
    let [a, b] = &clash.sides;
    assert!(widest(a.code).meet(&widest(b.code)).is_none());
    side_holds(&table, &clash, a, &steps);
    side_holds(&table, &clash, b, &steps);
    // The words name the thing and every step.
    let words = crate::refusal(10, 0, refusal.place, bytes, None, None);
    let first = words.lines().next().expect("a line");
    let thing = match clash.thing {
        Thing::Symbol(symbol) => format!("s{symbol} is "),
        Thing::Term(term) => format!("{} is ", ours.term(term)),
    };
    assert!(first.contains(&thing), "{words}");
    for step in &steps {
        assert!(words.contains(&format!("step {step}")), "{words}");
    }
    steps.len()
}

#[test]
fn generated_tables_with_a_conflict() {
    for seed in 0..3_000 {
        holds(&tables::table(&mut Rng::new(seed), TableKind::Fault(10)));
    }
}

/// A term of a few symbols.
fn some_term(rng: &mut Rng, raw: &mut RawTable, symbols: &[u8], depth: usize) -> u8 {
    if depth == 0 || rng.once_in(2) {
        let symbol = rng.pick(symbols);
        return raw.term([0, symbol, 0]);
    }
    let a = some_term(rng, raw, symbols, depth - 1);
    let b = some_term(rng, raw, symbols, depth - 1);
    raw.term([rng.within(1, 2) as u8, a, b])
}

/// Any steps over a few symbols, none used before it is bound.
fn some_table(rng: &mut Rng) -> RawTable {
    let mut raw = RawTable::default();
    let mut symbols: Vec<u8> = (0..rng.within(1, 4)).map(|_| raw.symbol(rng.below(2) as u8)).collect();
    for _ in 0..rng.within(1, 10) {
        let op = rng.below(6) as u8;
        let (uses_a, uses_b) = generate::raw::term_fields(op);
        let (binds_x, binds_y) = generate::raw::symbol_fields(op);
        let depth = rng.below(3);
        let mut term = |used: bool, raw: &mut RawTable| match used {
            true => some_term(rng, raw, &symbols, depth),
            false => 0,
        };
        let (a, b) = (term(uses_a, &mut raw), term(uses_b, &mut raw));
        let bound = |binds: bool, raw: &mut RawTable| match binds {
            true => raw.symbol(u8::from(op != 2)),
            false => 0,
        };
        let (x, y) = (bound(binds_x, &mut raw), bound(binds_y, &mut raw));
        symbols.extend(binds_x.then_some(x));
        symbols.extend(binds_y.then_some(y));
        raw.steps.push([op, a, b, x, y]);
    }
    raw
}

#[test]
fn any_steps_over_a_few_symbols() {
    let (mut untyped, mut longest) = (0, 0);
    for seed in 0..60_000 {
        let bytes = some_table(&mut Rng::new(seed)).bytes();
        match library::types(&bytes) {
            Err(refusal) if refusal.number == 10 => {
                untyped += 1;
                longest = longest.max(holds(&bytes));
            }
            Err(refusal) => panic!("{refusal:?}"),
            Ok(_) => {}
        }
    }
    assert!(untyped > 10_000, "{untyped}");
    assert!(longest >= 4, "{longest}");
}
