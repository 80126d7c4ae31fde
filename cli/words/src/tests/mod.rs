//! The tests: whole files in words, what each refusal means, clashes held against the second implementation, damaged files of all
//! kinds, and graphs that unfold to more than could ever be written.

mod clashes;
mod damage;
mod refusals;
mod shared;
mod whole_files;

use std::path::Path;

/// A file of examples/.
fn example(name: &str) -> Vec<u8> {
    let folder = Path::new(env!("CARGO_MANIFEST_DIR")).join("../../examples");
    std::fs::read(folder.join(name)).expect("an example")
}

/// The proved library's answer to a run, and both buffers as they are then.
fn run(table: &[u8], list: &[u8], trace: &[u8], room: [usize; 2]) -> ([u64; 8], [Vec<u8>; 2]) {
    let mut answer = [0; 8];
    let [mut values, mut log] = room.map(|bytes| vec![0; bytes]);
    mirvashol::raw::run(table, list, trace, &mut values, &mut log, &mut answer);
    (answer, [values, log])
}

/// The proved library's answer to a list.
fn judge(table: &[u8], list: &[u8]) -> [u64; 8] {
    let mut answer = [0; 8];
    mirvashol::raw::judge(table, list, &mut answer);
    answer
}

/// The compiler's list.
fn compiled(table: &[u8]) -> Vec<u8> {
    let (mut out, mut answer) = (vec![0; 30_000], [0; 8]);
    assert_eq!(mirvashol::raw::compile(table, &mut out, &mut answer), 0);
    out.truncate(answer[3] as usize);
    out
}

/// Room for all that a run can write.
const ENOUGH: [usize; 2] = [7_680, 2_560];

/// A text is the one in the folder `expected`. With WORDS_WRITE set it is written there instead: look at the difference then.
fn same(now: &str, name: &str) {
    let file = Path::new(env!("CARGO_MANIFEST_DIR"))
        .join("src/tests/expected")
        .join(name);
    if std::env::var_os("WORDS_WRITE").is_some() {
        std::fs::write(&file, now).expect("a file written");
    }
    let expected = std::fs::read_to_string(&file).expect("a file of expected words");
    assert!(now == expected, "not the words of {name}; now it is:\n{now}");
}
