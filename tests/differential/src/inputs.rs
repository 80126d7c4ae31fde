//! The files that the cases are made of. Many are damaged.

use std::sync::OnceLock;

use generate::damage::damage;
use generate::lists::{accepted, list};
use generate::tables::{some_typed, some_typed_kind, table};
use generate::traces::trace;
use generate::{Damage, ListKind, Rng, TableKind, TraceKind};
use second::read_table::read_table;
use second::Answer;

use crate::service::{label, Case, ANSWER, DAMAGE, KIND};

/// The files of a case, in the order in which a service takes them, and what was made of one of them.
pub struct Inputs {
    pub kind: String,
    pub damage: Option<Damage>,
    pub files: Vec<(&'static str, Vec<u8>)>,
}

impl Inputs {
    pub fn bytes(&self) -> Vec<&[u8]> {
        self.files.iter().map(|(_, bytes)| bytes.as_slice()).collect()
    }

    /// The case that these files made, by the second implementation's answer.
    pub fn case(self, answer: &Answer, difference: Option<String>) -> Case {
        let damage = self.damage.map_or("none".to_string(), |how| format!("{how:?}"));
        Case {
            counted: vec![(ANSWER, label(answer)), (KIND, self.kind), (DAMAGE, damage)],
            difference,
            inputs: self.files,
        }
    }
}

/// What a file was made as, for the counts.
pub fn kind_label(file: &str, kind: impl std::fmt::Debug) -> String {
    format!("{file} {kind:?}")
}

/// The kind of the tables in `examples/`.
const REAL: &str = "table of a real protocol";

pub fn table_kinds() -> Vec<String> {
    let made = TableKind::all();
    let labels = made.iter().map(|kind| kind_label("table", kind));
    labels.chain([REAL.to_string()]).collect()
}

pub fn list_kinds() -> Vec<String> {
    ListKind::all().iter().map(|kind| kind_label("list", kind)).collect()
}

pub fn trace_kinds() -> Vec<String> {
    TraceKind::all().iter().map(|kind| kind_label("trace", kind)).collect()
}

pub fn damages() -> (&'static str, Vec<String>) {
    let all = Damage::ALL.iter().map(|how| format!("{how:?}"));
    (DAMAGE, std::iter::once("none".to_string()).chain(all).collect())
}

/// The file, damaged once in so many times.
pub fn damaged_once_in(rng: &mut Rng, times: usize, file: Vec<u8>) -> (Option<Damage>, Vec<u8>) {
    if rng.once_in(times) {
        let how = rng.pick(&Damage::ALL);
        (Some(how), damage(rng, how, &file))
    } else {
        (None, file)
    }
}

/// A table of `examples/`.
fn a_real_table(rng: &mut Rng) -> Vec<u8> {
    static TABLES: OnceLock<Vec<Vec<u8>>> = OnceLock::new();
    let all = || {
        let protocols = examples::all();
        protocols
            .iter()
            .flat_map(|protocol| protocol.roles.iter().map(|role| role.table.clone()))
            .collect()
    };
    rng.pick(TABLES.get_or_init(all))
}

/// A typed table: a generated one, or now and then a real protocol's.
pub fn a_typed_table(rng: &mut Rng) -> Vec<u8> {
    if rng.once_in(12) {
        a_real_table(rng)
    } else {
        some_typed(rng)
    }
}

/// Typed ones and faulty ones; half of them are damaged.
pub fn a_table(rng: &mut Rng) -> Inputs {
    let (kind, made) = match rng.below(12) {
        0 => (REAL.to_string(), a_real_table(rng)),
        1..=5 => {
            let kind = some_typed_kind(rng);
            (kind_label("table", kind), table(rng, kind))
        }
        _ => {
            let kind = rng.pick(&TableKind::all());
            (kind_label("table", kind), table(rng, kind))
        }
    };
    let (damage, bytes) = damaged_once_in(rng, 2, made);
    Inputs {
        kind,
        damage,
        files: vec![("table", bytes)],
    }
}

/// A typed table and a list of this kind for it.
pub fn list_for_table(rng: &mut Rng, kind: ListKind) -> (Vec<u8>, Vec<u8>) {
    loop {
        let table = a_typed_table(rng);
        // Not every table gives occasion for every kind.
        if let Some(bytes) = list(rng, &table, kind) {
            return (table, bytes);
        }
    }
}

/// A list, and the number of free symbols of its table. Half of the lists are damaged.
pub fn a_list(rng: &mut Rng) -> (Inputs, usize) {
    // A reader sees no difference between faithful and not, so most of the lists are the ones that are quickly made.
    let kind = match rng.below(8) {
        0 => ListKind::Compiled,
        1 | 2 => ListKind::Faithful,
        3 | 4 => rng.pick(&ListKind::all()),
        _ => ListKind::Fault(rng.within(1, 5) as u8),
    };
    let (table, made) = list_for_table(rng, kind);
    let (damage, bytes) = damaged_once_in(rng, 2, made);
    let inputs = Inputs {
        kind: kind_label("list", kind),
        damage,
        files: vec![("list", bytes)],
    };
    (inputs, read_table(&table).map_or(0, |t| t.free().len()))
}

/// A typed table, an accepted list, and a trace of this kind for them.
pub fn trace_for_list(rng: &mut Rng, kind: TraceKind) -> (Vec<u8>, Vec<u8>, Vec<u8>) {
    loop {
        let table = a_typed_table(rng);
        let list = accepted(rng, &table).expect("a typed table");
        // Not every list gives occasion for every kind.
        if let Some(bytes) = trace(rng, &table, &list, kind) {
            return (table, list, bytes);
        }
    }
}

/// A trace by itself; half of them are damaged.
pub fn a_trace(rng: &mut Rng) -> Inputs {
    // A reader does not see how a run ends.
    let kind = match rng.below(8) {
        0..=2 => TraceKind::Random,
        3 | 4 => rng.pick(&TraceKind::all()),
        _ => TraceKind::Fault(rng.within(1, 6) as u8),
    };
    let (_, _, made) = trace_for_list(rng, kind);
    let (damage, bytes) = damaged_once_in(rng, 2, made);
    Inputs {
        kind: kind_label("trace", kind),
        damage,
        files: vec![("trace", bytes)],
    }
}
