//! Reading a list, given the number of free symbols: numbers 1 to 5, or S, N and the offset of the first statement.

use generate::Rng;
use mirvashol::raw;
use second::refusal::LIST;

use crate::compare::{compare, nothing_further};
use crate::inputs::{a_list, damages, list_kinds};
use crate::service::{answers, Case, Service, KIND};

pub const SERVICE: Service = Service {
    name: "check_list",
    owed: || vec![answers(&[(LIST, 1, 5)]), (KIND, list_kinds()), damages()],
    case,
};

fn case(rng: &mut Rng) -> Case {
    let (inputs, right) = a_list(rng);
    let free = match rng.below(8) {
        0 => rng.below(300),
        1 => rng.pick(&[0, 96, 255, 256, 257, usize::MAX - 513, usize::MAX - 1, usize::MAX]),
        2 => rng.number() as usize,
        3 => right.saturating_sub(1),
        _ => right,
    };
    let compared = compare(
        rng,
        &inputs.bytes(),
        &[],
        |files, _| second::service::check_list(files[0], free),
        |files, _, answer| raw::check_list(files[0], free, answer),
        nothing_further,
    );
    let difference = compared.difference.map(|words| format!("free {free}: {words}"));
    inputs.case(&compared.answer, difference)
}
