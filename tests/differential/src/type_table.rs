//! Typing a table: numbers 1 to 10 and 15, or the S types with their length bytes in the lent buffer.

use generate::Rng;
use mirvashol::raw;

use crate::lent::{case_with_buffer, owed};
use crate::service::{Case, Service};

pub const SERVICE: Service = Service {
    name: "type",
    owed,
    case,
};

fn case(rng: &mut Rng) -> Case {
    case_with_buffer(rng, second::service::type_table, raw::type_table)
}
