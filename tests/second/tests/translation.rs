//! Lists written out by hand: the order of building, and what each step gives.

mod common;

use common::{compile, hex};

/// The statements of a table's list; the table is given without its mark and version.
fn statements(body: &str) -> Vec<u8> {
    let table = hex(&format!("53 50 54 00 01 {body}"));
    let list = compile(&table).unwrap();
    let count = usize::from(list[6]) * 256 + usize::from(list[7]);
    list[list.len() - 4 * count..].to_vec()
}

#[test]
fn parts_first_left_before_right_plaintext_before_key() {
    // Names c k; terms c, k, {c}k, (c, k), ((c, k), {c}k), {that}k; the last is sent on c.
    let terms = "00 00 00 | 00 01 00 | 02 00 01 | 01 00 01 | 01 03 02 | 02 04 01";
    let sent = format!("02 06 01 | 00 00 | {terms} | 00 00 05 00 00");
    let expected = "07 00 01 00 | 08 00 01 00 | 07 02 03 00 | 08 04 01 00 | 00 00 05 00";
    assert_eq!(statements(&sent), hex(expected));
    // A part that was built before is not built again; match builds a, then b.
    let matched = format!("02 06 02 | 00 00 | {terms} | 03 02 03 00 00 00 00 05 00 00");
    let expected = "08 00 01 00 | 07 00 01 00 | 03 02 03 00 | 07 03 02 00 | 08 04 01 00 | 00 00 05 00";
    assert_eq!(statements(&matched), hex(expected));
}

#[test]
fn each_step_gives_its_statements() {
    // Symbols: x k n c y z w, of which k and c are free. Terms: c, k, n, x, (n, k), {(n, k)}k.
    // c(x), restriction of n, split of (n, k) as y and z, decryption of {(n, k)}k with k as w, match of x with n, n sent on c.
    let table = "07 06 06 | 01 00 00 00 01 01 01 | 00 03 00 00 01 00 00 02 00 00 00 00 01 02 01 02 04 01 \
        | 01 00 00 00 00 02 00 00 02 00 04 04 00 04 05 05 05 01 06 00 03 03 02 00 00 00 00 02 00 00";
    // Registers: 0 k, 1 c, 2 x, 3 n, 4 (n, k), 5 y, 6 z, 7 the ciphertext, 8 w.
    let expected = "01 01 00 00 | 02 00 00 02 | 07 03 00 00 | 04 04 00 04 | 05 04 00 05 | 08 04 00 00 | 06 07 00 06 \
        | 03 02 03 00 | 00 01 03 00";
    assert_eq!(statements(table), hex(expected));
}
