//! Compiling a table: numbers 1 to 10 and 15, or the list's bytes in the lent buffer.

use generate::Rng;
use mirvashol::raw;

use crate::lent::{case_with_buffer, owed};
use crate::service::{Case, Service};

pub const SERVICE: Service = Service {
    name: "compile",
    owed,
    case,
};

fn case(rng: &mut Rng) -> Case {
    case_with_buffer(rng, second::service::compile, raw::compile)
}
