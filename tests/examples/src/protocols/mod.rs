//! The protocols, one module each. In all of them plain atoms are people, nonces, times and texts.

mod andrew;
mod incident;
mod iso_three_pass;
mod iso_two_pass;
mod needham_schroeder;
mod otway_rees;
mod wide_mouthed_frog;
mod yahalom;

use crate::role::Protocol;

pub fn all() -> Vec<Protocol> {
    vec![
        incident::protocol(),
        wide_mouthed_frog::protocol(),
        needham_schroeder::protocol(),
        otway_rees::protocol(),
        yahalom::protocol(),
        andrew::protocol(),
        iso_two_pass::protocol(),
        iso_three_pass::protocol(),
    ]
}
