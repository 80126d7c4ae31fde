//! What the coverage-guided fuzzer calls (`tools/fuzz`): one input is a table, a list and a trace, and every service of the proved static
//! library answers it as the second implementation does, to the last byte of the lent buffers. A difference ends the process.

use mirvashol::raw;
use second::Answer;

/// What the buffers hold before a call, so that a byte that should stay is seen.
const BEFORE: u8 = 0xA5;

/// Two 16-bit lengths, low byte first, then table, list and trace. Lengths that go past the end are cut.
fn parts(input: &[u8]) -> (&[u8], &[u8], &[u8]) {
    let word = |at: usize| {
        let byte = |i| input.get(i).copied().map_or(0, usize::from);
        byte(at) + 256 * byte(at + 1)
    };
    let rest = input.get(4..).unwrap_or(&[]);
    let (table, rest) = rest.split_at(word(0).min(rest.len()));
    let (list, trace) = rest.split_at(word(2).min(rest.len()));
    (table, list, trace)
}

/// Calls our function, and looks at the eight entries, at its result and at the entries beyond.
fn same(service: &str, theirs: Answer, ours: impl FnOnce(&mut [u64]) -> u8) {
    let mut answer = [7; 9];
    let number = ours(&mut answer);
    assert_eq!(answer[..8], theirs, "{service}");
    assert_eq!(u64::from(number), theirs[0], "{service}");
    assert_eq!(answer[8], 7, "{service}");
}

/// A service that writes to one lent buffer of so many bytes.
fn same_file(
    service: &str,
    room: usize,
    theirs: impl FnOnce(&mut [u8]) -> Answer,
    ours: impl FnOnce(&mut [u8], &mut [u64]) -> u8,
) {
    let (mut a, mut b) = (vec![BEFORE; room], vec![BEFORE; room]);
    let answer = theirs(&mut a);
    same(service, answer, |entries| ours(&mut b, entries));
    assert_eq!(a, b, "{service}");
}

/// All services on one input.
fn compare(table: &[u8], list: &[u8], trace: &[u8]) {
    same("check_table", second::service::check_table(table), |answer| {
        raw::check_table(table, answer)
    });
    same("check_trace", second::service::check_trace(trace), |answer| {
        raw::check_trace(trace, answer)
    });
    let symbol = table.len() % 100;
    same("type_of", second::service::type_of(list, symbol), |answer| {
        raw::type_of(list, symbol, answer)
    });
    same("check_list", second::service::check_list(list, symbol), |answer| {
        raw::check_list(list, symbol, answer)
    });
    // Rooms that are long enough, and such as often are not.
    for room in [16_384, 2 * table.len()] {
        same_file(
            "type",
            room,
            |out| second::service::type_table(table, out),
            |out, answer| raw::type_table(table, out, answer),
        );
        same_file(
            "compile",
            room,
            |out| second::service::compile(table, out),
            |out, answer| raw::compile(table, out, answer),
        );
    }
    same("judge", second::service::judge(table, list), |answer| {
        raw::judge(table, list, answer)
    });
    compare_shelf(table, list, trace);
    let log = if trace.len() % 2 == 0 { 2_568 } else { 15 };
    let (mut a, mut b) = (vec![BEFORE; log], vec![BEFORE; log]);
    same_file(
        "run",
        7_688,
        |values| second::service::run(table, list, trace, values, &mut a),
        |values, answer| raw::run(table, list, trace, values, &mut b, answer),
    );
    assert_eq!(a, b, "run");
}

/// A shelf of the list, the trace and the list once more: by its lengths, and by lengths that the trace's bytes give.
fn compare_shelf(table: &[u8], list: &[u8], trace: &[u8]) {
    let lists = [list, trace, list].concat();
    let right = [list.len(), trace.len(), list.len()].map(|length| length as u64);
    let word = |bytes: &[u8]| {
        bytes
            .iter()
            .fold(0, |number, &byte| 256 * (number % (1 << 56)) + u64::from(byte))
    };
    let given: Vec<u64> = trace.chunks(8).map(word).collect();
    for (lengths, room) in [(&right[..], 16), (&right[..], trace.len() % 16), (&given[..], 260)] {
        same_file(
            "judge_shelf",
            room,
            |verdicts| second::service::judge_shelf(table, &lists, lengths, verdicts),
            |verdicts, answer| raw::judge_shelf(table, &lists, lengths, verdicts, answer),
        );
    }
}

/// libFuzzer's entry.
///
/// # Safety
/// `data` is valid for `size` bytes.
#[no_mangle]
pub unsafe extern "C" fn LLVMFuzzerTestOneInput(data: *const u8, size: usize) -> i32 {
    let input = if size == 0 {
        &[]
    } else {
        std::slice::from_raw_parts(data, size)
    };
    let (table, list, trace) = parts(input);
    compare(table, list, trace);
    0
}
