//! Running a judged list on a trace: all refusals, all endings, and both lent buffers. Demand 3 is tested on what both give.

use generate::{Rng, Sits, TraceKind};
use mirvashol::raw;
use second::bytes::wide;
use second::demand3;
use second::refusal::{BUFFER as LENT, LIST, TABLE, TRACE};
use second::Answer;

use crate::compare::compare;
use crate::inputs::{
    damaged_once_in, damages, kind_label, list_kinds, table_kinds, trace_for_list, trace_kinds, Inputs,
};
use crate::judge::a_table_and_list;
use crate::lent::{needed, BUFFER};
use crate::room::Room;
use crate::service::{answers, Case, Service, KIND};

pub const SERVICE: Service = Service {
    name: "run",
    owed,
    case,
};

/// How the run ended, and at which statement.
const ENDING: &str = "ending";

/// The buffers' names, in the order in which a run takes them.
const BUFFERS: [&str; 2] = ["values", "messages"];

/// The longest buffers that a run can need.
const MOST: [usize; 2] = [5 * (1024 + 512), 5 * 512];

fn owed() -> Vec<(&'static str, Vec<String>)> {
    let endings = [
        "0",
        "1 at receive",
        "1 at fresh",
        "2 at compare",
        "3 at decrypt",
        "4 at receive",
        "5 at decrypt",
        "6 at fresh",
        "7 at fresh",
    ];
    let rooms = BUFFERS
        .iter()
        .flat_map(|name| Room::ALL.map(|room| room_label(name, room)));
    vec![
        answers(&[
            (TABLE, 1, 10),
            (LIST, 1, 5),
            (LIST, 11, 13),
            (TRACE, 1, 6),
            (TRACE, 14, 14),
            (LENT, 15, 15),
        ]),
        (ENDING, endings.map(String::from).to_vec()),
        (BUFFER, rooms.collect()),
        (KIND, [trace_kinds(), list_kinds(), table_kinds()].concat()),
        damages(),
    ]
}

fn room_label(name: &str, room: Room) -> String {
    format!("{name} {room:?}")
}

fn case(rng: &mut Rng) -> Case {
    let inputs = a_run(rng);
    let needed = both_needed(&inputs.bytes());
    let rooms = [Room::some(rng), Room::some(rng)];
    let lengths = [rooms[0].length(rng, needed[0]), rooms[1].length(rng, needed[1])];
    // Equal runs are one run, so this tests demand 3 on both implementations.
    let files = inputs.bytes();
    let compared = compare(rng, &files, &lengths, second_run, our_run, |answer, buffers| {
        demand_3(&files, answer, buffers)
    });
    let answer = compared.answer;
    let difference = compared
        .difference
        .map(|words| format!("buffers of {lengths:?} bytes, {needed:?} needed: {words}"));
    let ending = (answer[0] == 0).then(|| ending_label(files[1], &answer));
    let mut case = inputs.case(&answer, difference);
    case.counted.extend(ending.map(|label| (ENDING, label)));
    for (name, room) in BUFFERS.into_iter().zip(rooms) {
        case.counted.push((BUFFER, room_label(name, room)));
    }
    case
}

fn second_run(files: &[&[u8]], buffers: &mut [&mut [u8]]) -> Answer {
    let [values, log] = buffers else { panic!("two buffers") };
    second::service::run(files[0], files[1], files[2], values, log)
}

fn our_run(files: &[&[u8]], buffers: &mut [&mut [u8]], answer: &mut [u64]) -> u8 {
    let [values, log] = buffers else { panic!("two buffers") };
    raw::run(files[0], files[1], files[2], values, log, answer)
}

/// What the run needs of each buffer, asked by lending nothing of it and enough of the other.
fn both_needed(files: &[&[u8]]) -> [usize; 2] {
    let [mut values, mut log] = MOST.map(|length| vec![0; length]);
    [
        needed(&second_run(files, &mut [&mut [], &mut log])),
        needed(&second_run(files, &mut [&mut values, &mut []])),
    ]
}

/// Demand 3, where the run was not refused.
fn demand_3(files: &[&[u8]], answer: &Answer, buffers: &[&[u8]]) -> Result<(), String> {
    if answer[0] != 0 {
        return Ok(());
    }
    demand3::check(files[0], files[1], files[2], answer, buffers[0], buffers[1])
        .map_err(|words| format!("demand 3 is broken: {words}"))
}

/// The ending, and the statement at which a run ends early.
fn ending_label(list: &[u8], answer: &Answer) -> String {
    const STATEMENTS: [&str; 9] = [
        "send", "receive", "fresh", "compare", "left", "right", "decrypt", "pair", "encrypt",
    ];
    if answer[3] == 0 {
        return "0".to_string();
    }
    // The statements are the last 4N bytes.
    let left = wide(list, 6) - answer[4] as usize;
    let code = list[list.len() - 4 * left];
    format!("{} at {}", answer[3], STATEMENTS[usize::from(code)])
}

/// A table, a list and a trace: mostly runs with each ending, and few where a file is refused.
fn a_run(rng: &mut Rng) -> Inputs {
    if rng.once_in(6) {
        // The faults of table and list come first, whatever the trace.
        let mut inputs = a_table_and_list(rng);
        let (_, _, trace) = trace_for_list(rng, TraceKind::Random);
        inputs.files.push(("trace", trace));
        return inputs;
    }
    let kind = match rng.below(9) {
        0 => TraceKind::Random,
        1 => rng.pick(&TraceKind::all()),
        2 => TraceKind::Supplied(rng.pick(&Sits::ALL)),
        3 => TraceKind::Fault(rng.pick(&[1, 2, 3, 4, 5, 6, 14])),
        _ => TraceKind::Ending(rng.below(8) as u8),
    };
    let (table, list, made) = trace_for_list(rng, kind);
    let (damage, bytes) = damaged_once_in(rng, 8, made);
    Inputs {
        kind: kind_label("trace", kind),
        damage,
        files: vec![("table", table), ("list", list), ("trace", bytes)],
    }
}
