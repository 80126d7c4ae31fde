//! ISO/IEC 9798-2, three-pass mutual authentication: each encrypts both nonces, in its own order.

use crate::role::{Protocol, Role};
use crate::table::{sealed, tuple, TableWriter};
use crate::trace::{TraceWriter, Value};

pub fn protocol() -> Protocol {
    Protocol {
        folder: "iso-9798-2-three-pass",
        roles: vec![claimant(), verifier()],
    }
}

fn claimant() -> Role {
    let mut t = TableWriter::default();
    let [net, b, kab] = t.names(["net", "b", "kab"]);
    let (text2, text3) = (t.variable("text2"), t.variable("text3"));
    let x = t.receive(&net, "x");
    let [rb, _] = t.split(&x, ["rb", "text1"]);
    let ra = t.fresh("ra");
    t.send(&net, &tuple(&[&text3, &sealed(&[&ra, &rb, &b, &text2], &kab)]));
    let y = t.receive(&net, "y");
    let [_, token] = t.split(&y, ["text5", "token"]);
    let p = t.decrypt(&token, &kab, "p");
    let [r1, r2, _] = t.split(&p, ["r1", "r2", "text4"]);
    t.compare(&r1, &rb);
    t.compare(&r2, &ra);

    let night = |answered: u16| {
        let mut v = TraceWriter::default();
        let start = [v.channel(0), v.plain(2), v.key(1), v.plain(102), v.plain(103)];
        let (ra, rb, answered) = (v.plain(10), v.plain(20), v.plain(answered));
        let (text1, text4, text5) = (v.plain(101), v.plain(104), v.plain(105));
        let first = v.tuple(&[rb, text1]);
        let token = v.sealed(&[rb, answered, text4], start[2]);
        let third = v.tuple(&[text5, token]);
        v.finish(&start, &[first, ra, third])
    };
    Role::new("claimant", t)
        .night("good", 0, night(10))
        .night("replayed", 2, night(9))
}

fn verifier() -> Role {
    let mut t = TableWriter::default();
    let [net, b, kab] = t.names(["net", "b", "kab"]);
    let [text1, text4, text5] = ["text1", "text4", "text5"].map(|text| t.variable(text));
    let rb = t.fresh("rb");
    t.send(&net, &tuple(&[&rb, &text1]));
    let x = t.receive(&net, "x");
    let [_, token] = t.split(&x, ["text3", "token"]);
    let p = t.decrypt(&token, &kab, "p");
    let [ra, r, who, _] = t.split(&p, ["ra", "r", "who", "text2"]);
    t.compare(&r, &rb);
    t.compare(&who, &b);
    t.send(&net, &tuple(&[&text5, &sealed(&[&rb, &ra, &text4], &kab)]));

    // The inside of the token, from the two nonces, b, text2 and text4.
    let night = |inside: fn([Value; 5]) -> Vec<Value>| {
        let mut v = TraceWriter::default();
        let (net, b, kab) = (v.channel(0), v.plain(2), v.key(1));
        let texts = [v.plain(101), v.plain(104), v.plain(105)];
        let (ra, rb, text2, text3) = (v.plain(10), v.plain(20), v.plain(102), v.plain(103));
        let token = v.sealed(&inside([ra, rb, b, text2, texts[1]]), kab);
        let second = v.tuple(&[text3, token]);
        v.finish(&[net, b, kab, texts[0], texts[1], texts[2]], &[rb, second])
    };
    Role::new("verifier", t)
        .night("good", 0, night(|[ra, rb, b, text2, _]| vec![ra, rb, b, text2]))
        .night("reflected", 5, night(|[ra, rb, _, _, text4]| vec![rb, ra, text4]))
}
