//! Judging a whole shelf: the table's numbers 1 to 10, the shelf's 3 and 4, then 15; or a verdict for each list.

use std::collections::BTreeSet;

use generate::shelves::shelf;
use generate::{Rng, ShelfKind};
use mirvashol::raw;
use second::refusal::{BUFFER as LENT, LIST, TABLE};
use second::Answer;

use crate::compare::compare;
use crate::inputs::{a_table, a_typed_table, kind_label, table_kinds, Inputs};
use crate::lent::{needed, BUFFER};
use crate::room::Room;
use crate::service::{answers, label, Case, Service, KIND};

pub const SERVICE: Service = Service {
    name: "judge_shelf",
    owed,
    case,
};

/// The verdicts of a shelf, each counted once.
const VERDICTS: &str = "verdicts";

/// Bytes of a verdict.
const FOUR: usize = 4;

fn owed() -> Vec<(&'static str, Vec<String>)> {
    let rooms = Room::ALL.iter().map(|room| format!("{room:?}")).collect();
    let shelves = ShelfKind::ALL.map(|kind| kind_label("shelf", kind)).to_vec();
    vec![
        answers(&[(TABLE, 1, 10), (LIST, 3, 4), (LENT, 15, 15)]),
        (VERDICTS, answers(&[(LIST, 1, 5), (LIST, 11, 13)]).1),
        (BUFFER, rooms),
        (KIND, [shelves, table_kinds()].concat()),
    ]
}

fn case(rng: &mut Rng) -> Case {
    let inputs = a_table_and_shelf(rng);
    let files = inputs.bytes();
    let needed = needed(&second_shelf(&files, &mut [&mut []]));
    let room = Room::some(rng);
    let length = room.length(rng, needed);
    let compared = compare(rng, &files, &[length], second_shelf, our_shelf, |answer, buffers| {
        by_itself(&files, answer, buffers[0])
    });
    let difference = compared
        .difference
        .map(|words| format!("a buffer of {length} bytes, {needed} needed: {words}"));
    let verdicts = verdicts(&files, &compared.answer);
    let mut case = inputs.case(&compared.answer, difference);
    case.counted.push((BUFFER, format!("{room:?}")));
    case.counted
        .extend(verdicts.into_iter().map(|verdict| (VERDICTS, verdict)));
    case
}

/// A table and a shelf for it; now and then a table with faults, which come first whatever the shelf.
fn a_table_and_shelf(rng: &mut Rng) -> Inputs {
    let kind = rng.pick(&ShelfKind::ALL);
    let table = a_typed_table(rng);
    let made = shelf(rng, &table, kind);
    let mut inputs = if rng.once_in(4) {
        a_table(rng)
    } else {
        Inputs {
            kind: kind_label("shelf", kind),
            damage: None,
            files: vec![("table", table)],
        }
    };
    let lengths = made.lengths.iter().flat_map(|length| length.to_le_bytes()).collect();
    inputs
        .files
        .extend([("lists", made.lists), ("lengths, low byte first", lengths)]);
    inputs
}

/// The lengths, of which each is eight bytes of the third file.
fn lengths(files: &[&[u8]]) -> Vec<u64> {
    let eight = |bytes: &[u8]| u64::from_le_bytes(bytes.try_into().expect("eight bytes"));
    files[2].chunks(8).map(eight).collect()
}

fn second_shelf(files: &[&[u8]], buffers: &mut [&mut [u8]]) -> Answer {
    second::service::judge_shelf(files[0], files[1], &lengths(files), buffers[0])
}

fn our_shelf(files: &[&[u8]], buffers: &mut [&mut [u8]], answer: &mut [u64]) -> u8 {
    raw::judge_shelf(files[0], files[1], &lengths(files), buffers[0], answer)
}

/// The lists of a shelf whose lengths add up.
fn lists<'a>(files: &[&'a [u8]]) -> Vec<&'a [u8]> {
    let mut rest = files[1];
    let one = |length: u64| {
        let (list, after) = rest.split_at(length as usize);
        rest = after;
        list
    };
    lengths(files).into_iter().map(one).collect()
}

/// Each verdict is what our own judge says of that list by itself.
fn by_itself(files: &[&[u8]], answer: &Answer, verdicts: &[u8]) -> Result<(), String> {
    if answer[0] != 0 {
        return Ok(());
    }
    for (i, list) in lists(files).into_iter().enumerate() {
        let mut alone = [0; 8];
        raw::judge(files[0], list, &mut alone);
        let verdict = &verdicts[FOUR * i..FOUR * (i + 1)];
        let [number, file, high, low] = [0, 1, 2, 3].map(|k| u64::from(verdict[k]));
        if alone[..3] != [number, file, 256 * high + low] {
            return Err(format!(
                "verdict {i} is {verdict:?}, by itself the list gets {:?}",
                &alone[..3]
            ));
        }
    }
    Ok(())
}

/// The verdicts that the shelf's lists get, as labels.
fn verdicts(files: &[&[u8]], answer: &Answer) -> BTreeSet<String> {
    if answer[0] != 0 {
        return BTreeSet::new();
    }
    let verdict = |list| label(&second::service::judge(files[0], list));
    lists(files).into_iter().map(verdict).collect()
}
