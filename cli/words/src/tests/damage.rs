//! Every function answers on any bytes, what the readers here find is what the proved library finds, and every refusal has words.

use generate::{damage, lists, tables, traces, Damage, ListKind, Rng, TableKind, TraceKind};

use crate::codes::FILES;
use crate::library;
use crate::list::List;
use crate::table::Table;
use crate::tests::{example, run, ENOUGH};
use crate::trace::Trace;

/// No line has more than a handful of terms in it, each of 200 characters at most.
fn bounded(words: &str) {
    assert!(words.lines().all(|line| line.len() < 1_600), "{words}");
    assert!(words.is_empty() || words.ends_with('\n'));
}

/// Shows everything as everything, and asks for the words of every refusal that the library gives.
fn all_answer(table: &[u8], list: &[u8], trace: &[u8]) {
    for file in [table, list, trace] {
        crate::kind(file);
        bounded(&crate::table(file));
        bounded(&crate::list(file, None));
        bounded(&crate::list(file, Some(table)));
        bounded(&crate::trace(file, None));
        bounded(&crate::trace(file, Some(table)));
        bounded(&crate::values(file));
        bounded(&crate::log(file, None));
        bounded(&crate::log(file, Some(trace)));
        bounded(&crate::messages(file, trace));
        crate::types(table, &[file.to_vec()]);
        for place in [0, 1, 7, u64::MAX] {
            for number in 0..17 {
                bounded(&crate::refusal(
                    number,
                    number % 5,
                    place,
                    table,
                    Some(list),
                    Some(file),
                ));
            }
            bounded(&crate::stopped(table, file, place as usize));
        }
    }
    for room in [[0, 0], [7_680, 0], ENOUGH] {
        let ([number, file, place, ..], _) = run(table, list, trace, room);
        if number != 0 {
            let words = crate::refusal(number, file, place, table, Some(list), Some(trace));
            assert!(!words.is_empty(), "refused {number} {file} {place}");
        }
    }
    same_faults(table, list, trace);
}

/// The readers' faults 1 to 5 are the library's.
fn same_faults(table: &[u8], list: &[u8], trace: &[u8]) {
    let ours = |refusal: Option<library::Refusal>| refusal.filter(|r| r.number <= 5).map(|r| (r.number, r.place));
    let read = Table::read(table);
    assert_eq!(
        ours(library::types(table).err()),
        read.fault.as_ref().map(|fault| (fault.number, fault.place))
    );
    let free = read.free().len();
    let fault = List::read(list, Some(free)).fault;
    assert_eq!(
        ours(library::list_refusal(list, free)),
        fault.map(|fault| (fault.number, fault.place))
    );
    let fault = List::read(list, None).fault;
    assert_eq!(
        ours(library::list_refusal(list, usize::MAX)),
        fault.map(|fault| (fault.number, fault.place))
    );
    let fault = Trace::read(trace).fault;
    assert_eq!(
        ours(library::trace_refusal(trace)),
        fault.map(|fault| (fault.number, fault.place))
    );
}

/// A table, a list for it and a trace for that, each of any kind.
fn some_files(rng: &mut Rng) -> [Vec<u8>; 3] {
    let typed = tables::some_typed(rng);
    let accepted = lists::accepted(rng, &typed).unwrap_or_default();
    let kind = rng.pick(&ListKind::all());
    let list = lists::list(rng, &typed, kind).filter(|_| rng.once_in(2));
    let kind = rng.pick(&TraceKind::all());
    let trace = traces::trace(rng, &typed, &accepted, kind).unwrap_or_default();
    let kind = rng.pick(&TableKind::all());
    let table = if rng.once_in(3) {
        tables::table(rng, kind)
    } else {
        typed
    };
    [table, list.unwrap_or(accepted), trace]
}

#[test]
fn generated_files_and_damaged_ones() {
    for seed in 0..1_500 {
        let mut rng = Rng::new(seed);
        let [mut table, mut list, mut trace] = some_files(&mut rng);
        for file in [&mut table, &mut list, &mut trace] {
            if rng.once_in(4) {
                let how = rng.pick(&Damage::ALL);
                *file = damage::damage(&mut rng, how, file);
                file.truncate(4_000);
            }
        }
        all_answer(&table, &list, &trace);
    }
}

#[test]
fn every_number_is_among_the_generated_ones() {
    let mut seen = [0; 16];
    for seed in 0..6_000 {
        let [table, list, trace] = some_files(&mut Rng::new(seed));
        let room = if seed % 8 == 0 { [0, 0] } else { ENOUGH };
        let ([number, file, place, ..], _) = run(&table, &list, &trace, room);
        seen[number as usize] += 1;
        if number != 0 {
            let words = crate::refusal(number, file, place, &table, Some(&list), Some(&trace));
            assert!(!words.is_empty(), "refused {number} {file} {place}");
        }
    }
    assert!(seen.iter().all(|&times| times > 0), "{seen:?}");
}

#[test]
fn files_cut_anywhere() {
    let [table, list, trace] =
        ["asking.spt", "asking.spl", "asking-good.spx"].map(|name| example(&format!("incident/{name}")));
    for end in 0..table.len().max(list.len()).max(trace.len()) {
        let cut = |file: &[u8]| file[..end.min(file.len())].to_vec();
        all_answer(&cut(&table), &list, &trace);
        all_answer(&table, &cut(&list), &trace);
        all_answer(&table, &list, &cut(&trace));
    }
}

#[test]
fn one_byte_changed_anywhere() {
    let files =
        ["answering.spt", "answering.spl", "answering-good.spx"].map(|name| example(&format!("incident/{name}")));
    for which in 0..3 {
        for at in 0..files[which].len() {
            for byte in [0, 1, 2, 3, 5, 9, 97, 255] {
                let mut changed = files.clone();
                changed[which][at] = byte;
                all_answer(&changed[0], &changed[1], &changed[2]);
            }
        }
    }
}

#[test]
fn very_long_input() {
    let mut long = b"SPT\x00\x01".to_vec();
    long.resize(1_000_000, 5);
    all_answer(&long, &long, &long);
    // A type as deep as the input is long.
    let table = b"SPT\x00\x01\x01\x00\x00\x00";
    assert!(crate::types(table, &[vec![5; 1_000_000]]).starts_with("0 name free not a type: 05"));
    let mut deep = vec![5; 100_000];
    deep.push(0);
    let words = crate::types(table, &[deep]);
    assert_eq!(words.matches("ciphertext(").count(), 100_000);
    assert_eq!(words.matches(')').count(), 100_000);
}

#[test]
fn a_run_stops_at_the_step_of_its_statement() {
    let mut stopped = 0;
    for seed in 0..1_500 {
        let mut rng = Rng::new(seed);
        let table = tables::some_typed(&mut rng);
        let list = lists::accepted(&mut rng, &table).expect("a list");
        let kind = TraceKind::Ending(rng.within(1, 7) as u8);
        let Some(trace) = traces::trace(&mut rng, &table, &list, kind) else {
            continue;
        };
        let (answer, _) = run(&table, &list, &trace, ENOUGH);
        let (read, judged) = second::service::judged(&table, &list).expect("an accepted list");
        let at = answer[4] as usize;
        let done = judged.statements[..at]
            .iter()
            .filter(|statement| !statement.is_build())
            .count();
        let words = crate::stopped(&table, &list, at);
        match second::judge::statements_due(&read).get(done) {
            Some(due) if answer[3] != 0 => {
                let step = format!("\nstep {}: ", due.step);
                assert!(
                    words.starts_with(&format!("statement {at}: ")) && words.contains(&step),
                    "{words}"
                );
                stopped += 1;
            }
            _ => assert_eq!(answer[3], 0),
        }
    }
    // Not every table has a run with the ending asked for.
    assert!(stopped > 300, "{stopped}");
}

/// Every count at its limit and one above it.
#[test]
fn limits() {
    let mut over = 0;
    for file in &FILES {
        for count in file.counts {
            for number in [count.limit, count.limit + 1] {
                let mut bytes = [file.mark, &[0, 1][..], &[0; 5]].concat();
                bytes.truncate(file.header);
                bytes[count.at + count.bytes - 1] = number as u8;
                if count.bytes == 2 {
                    bytes[count.at] = (number / 256) as u8;
                }
                same_faults(&bytes, &bytes, &bytes);
                let shown = [
                    crate::table(&bytes),
                    crate::list(&bytes, None),
                    crate::trace(&bytes, None),
                ];
                let is_over = shown.iter().any(|words| words.starts_with("refused 3 "));
                assert_eq!(is_over, number > count.limit);
                over += usize::from(is_over);
            }
        }
    }
    assert_eq!(over, 8);
}

#[test]
fn what_values_visibly_have() {
    let mut has = [0; 2];
    for seed in 0..300 {
        let mut rng = Rng::new(seed);
        let table = tables::some_typed(&mut rng);
        let types = library::types(&table).expect("types");
        let list = lists::accepted(&mut rng, &table).expect("a list");
        let kind = TraceKind::Ending(rng.within(0, 5) as u8);
        let Some(trace) = traces::trace(&mut rng, &table, &list, kind) else {
            continue;
        };
        let theirs = second::read_trace::read_trace(&trace).expect("a trace");
        let ours = Trace::read(&trace);
        for value in 0..theirs.values.len() {
            for one in &types {
                let wanted = second::types::Type::read(one).expect("a type");
                let visibly = second::trace::visibly_has(&theirs.values, value, &wanted);
                assert_eq!(ours.values.visibly_has(value, one), visibly);
                has[usize::from(visibly)] += 1;
            }
        }
    }
    assert!(has.iter().all(|&times| times > 1_000), "{has:?}");
}
