//! The part of a list that holds the type of a symbol. It refuses nothing: the part may be empty.

use generate::Rng;
use mirvashol::raw;

use crate::compare::{compare, nothing_further};
use crate::inputs::{a_list, damages, list_kinds};
use crate::service::{answers, Case, Service, KIND};

/// Whether the part is empty.
const PART: &str = "part";

pub const SERVICE: Service = Service {
    name: "type_of",
    owed: || {
        let parts = ["a type", "empty"].map(String::from).to_vec();
        vec![answers(&[]), (PART, parts), (KIND, list_kinds()), damages()]
    },
    case,
};

fn case(rng: &mut Rng) -> Case {
    let (inputs, _) = a_list(rng);
    let symbols = inputs.bytes()[0].get(5).map_or(0, |&s| usize::from(s));
    let symbol = match rng.below(8) {
        0 => rng.pick(&[0, 95, 96, 255, 256, usize::MAX - 1, usize::MAX]),
        1 => rng.number() as usize,
        2 => symbols,
        _ => rng.below(symbols + 1),
    };
    let compared = compare(
        rng,
        &inputs.bytes(),
        &[],
        |files, _| second::service::type_of(files[0], symbol),
        |files, _, answer| raw::type_of(files[0], symbol, answer),
        nothing_further,
    );
    let difference = compared.difference.map(|words| format!("symbol {symbol}: {words}"));
    let answer = compared.answer;
    let mut case = inputs.case(&answer, difference);
    let part = if answer[4] == 0 { "empty" } else { "a type" };
    case.counted.push((PART, part.to_string()));
    case
}
