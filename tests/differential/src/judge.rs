//! Judging a list against a table: the table's numbers 1 to 10, the list's 1 to 5, then 11 to 13.

use generate::{Change, ListKind, Rng};
use mirvashol::raw;
use second::refusal::{LIST, TABLE};

use crate::compare::{compare, nothing_further};
use crate::inputs::{a_table, damaged_once_in, damages, kind_label, list_for_table, list_kinds, table_kinds, Inputs};
use crate::service::{answers, Case, Service, KIND};

pub const SERVICE: Service = Service {
    name: "judge",
    owed: || {
        vec![
            answers(&[(TABLE, 1, 10), (LIST, 1, 5), (LIST, 11, 13)]),
            (KIND, [list_kinds(), table_kinds()].concat()),
            damages(),
        ]
    },
    case,
};

fn case(rng: &mut Rng) -> Case {
    let inputs = a_table_and_list(rng);
    let compared = compare(
        rng,
        &inputs.bytes(),
        &[],
        |files, _| second::service::judge(files[0], files[1]),
        |files, _, answer| raw::judge(files[0], files[1], answer),
        nothing_further,
    );
    inputs.case(&compared.answer, compared.difference)
}

/// A table and a list to be judged: faithful ones, ones that are not by one change, and few that are not to be read at all.
pub fn a_table_and_list(rng: &mut Rng) -> Inputs {
    if rng.once_in(6) {
        // The table's faults come first, whatever the list.
        let mut inputs = a_table(rng);
        let (_, list) = list_for_table(rng, ListKind::Faithful);
        inputs.files.push(("list", list));
        return inputs;
    }
    let kind = match rng.below(8) {
        0 => ListKind::Compiled,
        1 | 2 => ListKind::Faithful,
        3..=5 => ListKind::Unfaithful(rng.pick(&Change::ALL)),
        6 => rng.pick(&ListKind::all()),
        _ => ListKind::Fault(rng.within(1, 5) as u8),
    };
    let (table, made) = list_for_table(rng, kind);
    let (damage, bytes) = damaged_once_in(rng, 6, made);
    Inputs {
        kind: kind_label("list", kind),
        damage,
        files: vec![("table", table), ("list", bytes)],
    }
}
