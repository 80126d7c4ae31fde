//! The widest typing against a search for typings: every assignment of small types to symbols is tried, and Figure 2's rules are
//! checked directly.

use generate::raw::RawTable;
use generate::Rng;
use second::read_table::read_table;
use second::table::{Sort, Step, Table, Term};
use second::types::Type;
use second::typing::widest_typing;

/// Every type with at most so many parts.
fn types_up_to(size: usize) -> Vec<Type> {
    let mut by_size: Vec<Vec<Type>> = vec![vec![Type::Message, Type::Name, Type::Channel, Type::ShKey]];
    for n in 2..=size {
        let mut found: Vec<Type> = by_size[n - 2].iter().cloned().map(Type::cipher).collect();
        for left in 1..n - 1 {
            for a in &by_size[left - 1] {
                for b in &by_size[n - 2 - left] {
                    found.push(Type::pair(a.clone(), b.clone()));
                }
            }
        }
        by_size.push(found);
    }
    by_size.concat()
}

/// The least type that T-Var, T-Pair and T-ShKC give the term; every other type is that one widened by subsumption.
fn least_type(table: &Table, types: &[Type], term: usize) -> Option<Type> {
    match table.terms[term] {
        Term::Symbol(s) => Some(types[s].clone()),
        Term::Pair(a, b) => Some(Type::pair(least_type(table, types, a)?, least_type(table, types, b)?)),
        Term::Encrypted(a, key) => {
            let key = least_type(table, types, key)?;
            let inside = least_type(table, types, a)?;
            key.below(&Type::ShKey).then(|| Type::cipher(inside))
        }
    }
}

/// Figure 2's premises of one step.
fn step_is_typed(table: &Table, types: &[Type], step: Step) -> bool {
    let has = |term: usize, wanted: Type| least_type(table, types, term).is_some_and(|least| least.below(&wanted));
    match step {
        Step::Output { channel, message } => has(channel, Type::Channel) && has(message, Type::Message),
        Step::Input { channel, .. } => has(channel, Type::Channel),
        Step::Restriction { x } => types[x].below(&Type::Name),
        Step::Match { a, b } => has(a, Type::Message) && has(b, Type::Message),
        Step::Split { a, x, y } => has(a, Type::pair(types[x].clone(), types[y].clone())),
        Step::Decrypt { a, key, x } => has(a, Type::cipher(types[x].clone())) && has(key, Type::ShKey),
    }
}

/// The symbols that a step speaks of.
fn symbols_of(table: &Table, step: Step) -> Vec<usize> {
    let held = table.held_by(&step.terms());
    let mut symbols = step.binds();
    for (t, term) in table.terms.iter().enumerate() {
        if let (true, Term::Symbol(s)) = (held[t], term) {
            symbols.push(*s);
        }
    }
    symbols
}

/// Every typing of the steps from the given one on, with types from the universe, is handed to `found`.
fn search(table: &Table, from: usize, universe: &[Type], found: &mut dyn FnMut(&[Type])) {
    let steps: Vec<(Step, usize)> = table.steps[from..]
        .iter()
        .map(|&step| (step, symbols_of(table, step).into_iter().max().map_or(0, |s| s + 1)))
        .collect();
    let mut used = vec![false; table.symbols.len()];
    for (step, _) in &steps {
        for s in symbols_of(table, *step) {
            used[s] = true;
        }
    }
    let mut types = vec![Type::Message; table.symbols.len()];
    assign(table, &steps, &used, universe, 0, &mut types, found);
}

fn assign(
    table: &Table,
    steps: &[(Step, usize)],
    used: &[bool],
    universe: &[Type],
    next: usize,
    types: &mut Vec<Type>,
    found: &mut dyn FnMut(&[Type]),
) {
    // Steps whose symbols all have types by now are checked as soon as that is so.
    let ready = |step: &&(Step, usize)| step.1 == next;
    if !steps
        .iter()
        .filter(ready)
        .all(|(step, _)| step_is_typed(table, types, *step))
    {
        return;
    }
    if next == types.len() {
        found(types);
        return;
    }
    let name = table.symbols[next] == Sort::Name;
    for one in universe {
        if name && !one.below(&Type::Name) {
            continue;
        }
        // A symbol that no step speaks of may have any type of its sort; the widest is enough.
        if !used[next] && *one != (if name { Type::Name } else { Type::Message }) {
            continue;
        }
        types[next] = one.clone();
        assign(table, steps, used, universe, next + 1, types, found);
    }
    types[next] = Type::Message;
}

/// A small table with no fault 1 to 9, typed or not.
fn small_table(rng: &mut Rng, names: usize, variables: usize, most_steps: usize) -> Table {
    loop {
        let mut raw = RawTable {
            symbols: [vec![0; rng.within(0, names)], vec![1; rng.within(1, variables)]].concat(),
            ..RawTable::default()
        };
        rng.shuffle(&mut raw.symbols);
        for _ in 0..rng.within(1, most_steps) {
            let a = small_term(rng, &mut raw);
            let b = small_term(rng, &mut raw);
            let x = rng.below(raw.symbols.len()) as u8;
            let y = rng.below(raw.symbols.len()) as u8;
            let entry = match rng.below(7) {
                0 => [0, a, b, 0, 0],
                1 => [1, a, 0, x, 0],
                2 => [2, 0, 0, x, 0],
                3 => [3, a, b, 0, 0],
                4 | 5 => [4, a, 0, x, y],
                _ => [5, a, b, x, 0],
            };
            raw.steps.push(entry);
        }
        if let Ok(table) = read_table(&raw.bytes()) {
            return table;
        }
    }
}

fn small_term(rng: &mut Rng, raw: &mut RawTable) -> u8 {
    match rng.below(6) {
        0 => {
            let (a, b) = (small_term(rng, raw), small_term(rng, raw));
            raw.term([1, a, b])
        }
        1 => {
            let (a, b) = (small_term(rng, raw), small_term(rng, raw));
            raw.term([2, a, b])
        }
        _ => {
            let s = rng.below(raw.symbols.len()) as u8;
            raw.term([0, s, 0])
        }
    }
}

/// Compares existence, widestness and the place of 10; says whether the table is typed.
fn compare(table: &Table, universe: &[Type]) -> bool {
    match widest_typing(table) {
        Ok(widest) => {
            assert!(
                table.steps.iter().all(|&step| step_is_typed(table, &widest, step)),
                "{table:?}"
            );
            assert!((0..widest.len()).all(|s| table.symbols[s] == Sort::Variable || widest[s].below(&Type::Name)));
            let most = 2 * table.steps.len() + 1;
            assert!(widest.iter().all(|t| t.bytes().len() <= most), "{table:?}");
            let in_universe = widest.iter().all(|t| universe.contains(t));
            let mut seen_widest = false;
            search(table, 0, universe, &mut |types| {
                let under = types.iter().zip(&widest).all(|(narrow, wide)| narrow.below(wide));
                assert!(under, "{table:?}: {types:?} is not under {widest:?}");
                seen_widest |= types == widest;
            });
            assert_eq!(seen_widest, in_universe, "{table:?}");
            true
        }
        Err(refusal) => {
            assert_eq!((refusal.number, refusal.file), (10, 0));
            let place = refusal.place as usize;
            search(table, place, universe, &mut |types| {
                panic!("{table:?} has the typing {types:?}")
            });
            // Every later part has a typing: found by inference on that part, and checked by the rules.
            let mut later = table.clone();
            later.steps.drain(..=place);
            let widest = widest_typing(&later).expect("the steps after the place have a typing");
            assert!(later.steps.iter().all(|&step| step_is_typed(&later, &widest, step)));
            false
        }
    }
}

/// So many tables that can be searched in at most so many assignments; none of the two sorts of answer may be rare.
fn compare_many(seed: u64, universe: &[Type], tables: usize, most: usize) {
    let (mut typed, mut untyped) = (0, 0);
    let mut i = 0;
    while typed + untyped < tables {
        i += 1;
        let table = small_table(&mut Rng::part(seed, i), 2, 4, 4);
        if assignments(&table, universe) > most {
            continue;
        }
        if compare(&table, universe) {
            typed += 1;
        } else {
            untyped += 1;
        }
    }
    println!("{typed} typed, {untyped} untyped");
    assert!(
        typed > tables / 5 && untyped > tables / 5,
        "{typed} typed, {untyped} untyped"
    );
}

/// How many assignments there are to the symbols that steps speak of.
fn assignments(table: &Table, universe: &[Type]) -> usize {
    let spoken_of: Vec<usize> = table.steps.iter().flat_map(|&step| symbols_of(table, step)).collect();
    (0..table.symbols.len())
        .filter(|s| spoken_of.contains(s))
        .map(|s| {
            if table.symbols[s] == Sort::Name {
                3
            } else {
                universe.len()
            }
        })
        .product()
}

#[test]
fn against_a_search_with_types_of_three_parts() {
    let universe = types_up_to(3);
    assert_eq!(universe.len(), 28);
    compare_many(11, &universe, 600, 30_000);
}

#[test]
fn against_a_search_with_types_of_four_parts() {
    let universe = types_up_to(4);
    assert_eq!(universe.len(), 80);
    compare_many(12, &universe, 600, 20_000);
}

#[test]
fn against_a_search_with_types_of_five_parts() {
    let universe = types_up_to(5);
    assert_eq!(universe.len(), 308);
    compare_many(13, &universe, 100, 100_000);
}
