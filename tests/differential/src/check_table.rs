//! Reading a table: numbers 1 to 9, or S, T and P.

use generate::Rng;
use mirvashol::raw;
use second::refusal::TABLE;

use crate::compare::{compare, nothing_further};
use crate::inputs::{a_table, damages, table_kinds};
use crate::service::{answers, Case, Service, KIND};

pub const SERVICE: Service = Service {
    name: "check_table",
    owed: || vec![answers(&[(TABLE, 1, 9)]), (KIND, table_kinds()), damages()],
    case,
};

fn case(rng: &mut Rng) -> Case {
    let inputs = a_table(rng);
    let compared = compare(
        rng,
        &inputs.bytes(),
        &[],
        |files, _| second::service::check_table(files[0]),
        |files, _, answer| raw::check_table(files[0], answer),
        nothing_further,
    );
    inputs.case(&compared.answer, compared.difference)
}
