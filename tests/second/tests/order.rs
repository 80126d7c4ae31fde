//! Types: the order against document 01's rules, meets against a search for lower bounds, and prefix bytes.

use second::types::Type;

/// Every type with exactly so many parts.
fn types_of_size(size: usize) -> Vec<Type> {
    if size == 1 {
        return vec![Type::Message, Type::Name, Type::Channel, Type::ShKey];
    }
    let mut found: Vec<Type> = types_of_size(size - 1).into_iter().map(Type::cipher).collect();
    for left in 1..size - 1 {
        for a in types_of_size(left) {
            for b in types_of_size(size - 1 - left) {
                found.push(Type::pair(a.clone(), b));
            }
        }
    }
    found
}

fn types_up_to(size: usize) -> Vec<Type> {
    (1..=size).flat_map(types_of_size).collect()
}

/// The order as the closure of single rules: what lies directly below what, part by part.
fn directly_below(a: &Type, b: &Type) -> bool {
    match (a, b) {
        (Type::Name | Type::Pair(..) | Type::Cipher(_), Type::Message) => true,
        (Type::Channel | Type::ShKey, Type::Name) => true,
        (Type::Pair(p, q), Type::Pair(r, s)) => (p == r && directly_below(q, s)) || (q == s && directly_below(p, r)),
        (Type::Cipher(p), Type::Cipher(q)) => directly_below(p, q),
        _ => false,
    }
}

#[test]
fn the_order_is_the_closure_of_its_rules() {
    let all = types_up_to(4);
    let n = all.len();
    let mut below: Vec<Vec<bool>> = (0..n)
        .map(|i| (0..n).map(|j| i == j || directly_below(&all[i], &all[j])).collect())
        .collect();
    for k in 0..n {
        for i in 0..n {
            for j in 0..n {
                below[i][j] |= below[i][k] && below[k][j];
            }
        }
    }
    for i in 0..n {
        for j in 0..n {
            assert_eq!(all[i].below(&all[j]), below[i][j], "{:?} {:?}", all[i], all[j]);
        }
    }
}

#[test]
fn a_meet_is_the_greatest_lower_bound() {
    let some = types_up_to(3);
    let all = types_up_to(5);
    for a in &some {
        for b in &some {
            let lower: Vec<&Type> = all.iter().filter(|c| c.below(a) && c.below(b)).collect();
            match a.meet(b) {
                None => assert!(lower.is_empty(), "{a:?} {b:?}"),
                Some(meet) => {
                    assert!(meet.below(a) && meet.below(b));
                    assert!(lower.iter().all(|c| c.below(&meet)), "{a:?} {b:?}");
                }
            }
        }
    }
}

#[test]
fn prefix_bytes() {
    let all = types_up_to(5);
    for one in &all {
        let bytes = one.bytes();
        assert_eq!(Type::read(&bytes).as_ref(), Some(one));
        assert_eq!(Type::read(&bytes[..bytes.len() - 1]), None);
        assert_eq!(Type::read(&[bytes.clone(), vec![0]].concat()), None);
    }
    // Of all strings of five bytes 0 to 6, just the types of five parts are types.
    let mut found = 0;
    for n in 0..7_usize.pow(5) {
        let bytes: Vec<u8> = (0..5).map(|i| (n / 7_usize.pow(i) % 7) as u8).collect();
        if let Some(one) = Type::read(&bytes) {
            assert_eq!(one.bytes(), bytes);
            found += 1;
        }
    }
    assert_eq!(found, types_of_size(5).len());
    assert_eq!(Type::read(&[]), None);
    assert_eq!(Type::pair(Type::cipher(Type::Name), Type::ShKey).bytes(), [4, 5, 1, 3]);
}
