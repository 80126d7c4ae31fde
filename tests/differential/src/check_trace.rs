//! Reading a trace: numbers 1 to 6, or V, K and F.

use generate::Rng;
use mirvashol::raw;
use second::refusal::TRACE;

use crate::compare::{compare, nothing_further};
use crate::inputs::{a_trace, damages, trace_kinds};
use crate::service::{answers, Case, Service, KIND};

pub const SERVICE: Service = Service {
    name: "check_trace",
    owed: || vec![answers(&[(TRACE, 1, 6)]), (KIND, trace_kinds()), damages()],
    case,
};

fn case(rng: &mut Rng) -> Case {
    let inputs = a_trace(rng);
    let compared = compare(
        rng,
        &inputs.bytes(),
        &[],
        |files, _| second::service::check_trace(files[0]),
        |files, _, answer| raw::check_trace(files[0], answer),
        nothing_further,
    );
    inputs.case(&compared.answer, compared.difference)
}
