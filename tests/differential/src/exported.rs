//! The exported functions as the marked examples ask for them. Each gives its answer's number as a code too.

use marked::{Answer, Services};
use mirvashol::raw;

pub const EXPORTED: Services = Services {
    types: |table, out| answered(|answer| raw::type_table(table, out, answer)),
    compile: |table, out| answered(|answer| raw::compile(table, out, answer)),
    judge: |table, list| answered(|answer| raw::judge(table, list, answer)),
    run: |table, list, trace, values, log| answered(|answer| raw::run(table, list, trace, values, log, answer)),
};

fn answered(call: impl FnOnce(&mut [u64]) -> u8) -> Answer {
    let mut answer = [0; 8];
    let code = call(&mut answer);
    assert_eq!(u64::from(code), answer[0], "the code is the answer's number");
    answer
}
