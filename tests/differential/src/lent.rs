//! Services that take a table and write to one lent buffer: typing and compiling.

use generate::Rng;
use second::refusal::{BUFFER as LENT, TABLE};
use second::Answer;

use crate::compare::{compare, nothing_further};
use crate::inputs::{a_table, damages, table_kinds};
use crate::room::Room;
use crate::service::{answers, Case, KIND};

/// How long the lent buffer was.
pub const BUFFER: &str = "buffer";

pub fn owed() -> Vec<(&'static str, Vec<String>)> {
    let rooms = Room::ALL.iter().map(|room| format!("{room:?}")).collect();
    vec![
        answers(&[(TABLE, 1, 10), (LENT, 15, 15)]),
        (BUFFER, rooms),
        (KIND, table_kinds()),
        damages(),
    ]
}

pub fn case_with_buffer(
    rng: &mut Rng,
    second: fn(&[u8], &mut [u8]) -> Answer,
    ours: fn(&[u8], &mut [u8], &mut [u64]) -> u8,
) -> Case {
    let inputs = a_table(rng);
    let needed = needed(&second(inputs.bytes()[0], &mut []));
    let room = Room::some(rng);
    let length = room.length(rng, needed);
    let compared = compare(
        rng,
        &inputs.bytes(),
        &[length],
        |files, buffers| second(files[0], buffers[0]),
        |files, buffers, answer| ours(files[0], buffers[0], answer),
        nothing_further,
    );
    let difference = compared
        .difference
        .map(|words| format!("a buffer of {length} bytes, {needed} needed: {words}"));
    let mut case = inputs.case(&compared.answer, difference);
    case.counted.push((BUFFER, format!("{room:?}")));
    case
}

/// The bytes that were asked for where too few were lent; 0 where the answer says nothing of them.
pub fn needed(answer: &Answer) -> usize {
    if answer[0] == 15 {
        answer[2] as usize
    } else {
        0
    }
}
