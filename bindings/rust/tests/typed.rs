//! The typed functions on the marked examples: the answer, the part of the buffer that was written, and refusals.

use mirvashol::{Ending, ListCounts, Refusal, TableCounts, TraceCounts};

use marked::file;

fn refusal(number: u64, file: u64, place: u64) -> Refusal {
    Refusal { number, file, place }
}

/// What a row of the marked examples answers, in its own words.
fn answer(call: &[&str]) -> (String, [Vec<u8>; 2]) {
    let files: Vec<Vec<u8>> = call[1..].iter().map(|name| file(name)).collect();
    let none = || [Vec::new(), Vec::new()];
    let written = |bytes: Result<Vec<u8>, Refusal>| match bytes {
        Ok(bytes) => (String::new(), [bytes, Vec::new()]),
        Err(refusal) => (refusal.to_string(), none()),
    };
    match call[0] {
        "compile" => written(mirvashol::compile(&files[0])),
        "types" => {
            let with_length = |one: Vec<u8>| [vec![one.len() as u8], one].concat();
            let types = mirvashol::types(&files[0]);
            written(types.map(|types| types.into_iter().flat_map(with_length).collect()))
        }
        "judge" => match mirvashol::judge(&files[0], &files[1]) {
            Ok(()) => ("accepted".to_string(), none()),
            Err(refusal) => (refusal.to_string(), none()),
        },
        _ => match mirvashol::run(&files[0], &files[1], &files[2]) {
            Ok(ran) => {
                let (messages, values) = (ran.message_count(), ran.value_count());
                let numbers = format!(
                    "{} {} {} {messages} {values}",
                    ran.ending.number(),
                    ran.statement,
                    ran.supplies
                );
                (numbers, [ran.values, ran.log])
            }
            Err(refusal) => (refusal.to_string(), none()),
        },
    }
}

#[test]
fn the_marked_examples() {
    for (call, expected) in marked::rows() {
        let (words, written) = answer(&call.split(' ').collect::<Vec<&str>>());
        // Numbers and words, then the files that are written.
        let names: Vec<&str> = expected.split(' ').filter(|word| word.starts_with('e')).collect();
        let numbers: Vec<&str> = expected.split(' ').filter(|word| !word.starts_with('e')).collect();
        let mut files = names.into_iter().map(file);
        assert_eq!(words, numbers.join(" "), "{call}");
        assert_eq!(written[0], files.next().unwrap_or_default(), "{call}");
        assert_eq!(written[1], files.next().unwrap_or_default(), "{call}");
    }
}

#[test]
fn the_readers() {
    let counts = TableCounts {
        symbols: 4,
        terms: 4,
        steps: 3,
    };
    assert_eq!(mirvashol::check_table(&file("e1.spt")), Ok(counts));
    assert_eq!(mirvashol::check_table(&file("e10.spt")), Err(refusal(9, 0, 0)));
    let counts = ListCounts {
        types: 4,
        statements: 3,
        statements_at: 17,
    };
    assert_eq!(mirvashol::check_list(&file("e1.spl"), 2), Ok(counts));
    assert_eq!(mirvashol::check_list(&file("e1.spl"), 0), Err(refusal(5, 1, 17)));
    let counts = TraceCounts {
        values: 4,
        supplies: 1,
        starting: 2,
    };
    assert_eq!(mirvashol::check_trace(&file("e1.spx")), Ok(counts));
    assert_eq!(mirvashol::check_trace(&[]), Err(refusal(1, 2, 0)));
}

#[test]
fn a_symbols_type_is_a_part_of_the_list() {
    let list = file("e1.spl");
    assert_eq!(mirvashol::type_of(&list, 2), [5, 0]);
    assert!(std::ptr::eq(mirvashol::type_of(&list, 2), &list[13..15]));
    assert!(mirvashol::type_of(&list, 4).is_empty());
    assert!(mirvashol::type_of(&list[..20], 2).is_empty());
}

/// The sizes are those of the limits: 96 symbols, 128 terms and 64 steps; 512 statements; 1,024 values, 96 starting, 128 supplied. A symbol's type
/// has at most 2P + 1 bytes, and a translation at most 256 statements: that is proved.
#[test]
fn the_sizes_are_those_of_the_limits() {
    assert_eq!(mirvashol::ROOM_FOR_TYPES, 96 * (1 + 2 * 64 + 1));
    assert_eq!(mirvashol::ROOM_FOR_LIST, 8 + mirvashol::ROOM_FOR_TYPES + 4 * 256);
    assert_eq!(mirvashol::ROOM_FOR_VALUES, 5 * (1_024 + 512));
    assert_eq!(mirvashol::ROOM_FOR_LOG, 5 * 512);
    assert_eq!(mirvashol::LONGEST_TABLE, 8 + 96 + 3 * 128 + 5 * 64);
    assert_eq!(mirvashol::LONGEST_LIST, 8 + 96 * 256 + 4 * 512);
    assert_eq!(mirvashol::LONGEST_TRACE, 10 + 5 * 1_024 + 2 * 96 + 2 * 128);
}

#[test]
fn endings_are_numbered_in_order() {
    for (number, ending) in Ending::ALL.into_iter().enumerate() {
        assert_eq!(ending.number(), number as u64);
    }
}
