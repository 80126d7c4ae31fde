//! ISO/IEC 9798-2, two-pass unilateral authentication: the claimant encrypts the verifier's nonce.

use crate::role::{Protocol, Role};
use crate::table::{sealed, tuple, TableWriter};
use crate::trace::TraceWriter;

pub fn protocol() -> Protocol {
    Protocol {
        folder: "iso-9798-2-two-pass",
        roles: vec![claimant(), verifier()],
    }
}

fn claimant() -> Role {
    let mut t = TableWriter::default();
    let [net, b, kab] = t.names(["net", "b", "kab"]);
    let (text2, text3) = (t.variable("text2"), t.variable("text3"));
    let x = t.receive(&net, "x");
    let [rb, _] = t.split(&x, ["rb", "text1"]);
    t.send(&net, &tuple(&[&text3, &sealed(&[&rb, &b, &text2], &kab)]));

    let night = |paired: bool| {
        let mut v = TraceWriter::default();
        let start = [v.channel(0), v.plain(2), v.key(1), v.plain(102), v.plain(103)];
        let (rb, text1) = (v.plain(20), v.plain(101));
        let first = if paired { v.tuple(&[rb, text1]) } else { rb };
        v.finish(&start, &[first])
    };
    Role::new("claimant", t)
        .night("good", 0, night(true))
        .night("malformed", 4, night(false))
}

fn verifier() -> Role {
    let mut t = TableWriter::default();
    let [net, b, kab] = t.names(["net", "b", "kab"]);
    let text1 = t.variable("text1");
    let rb = t.fresh("rb");
    t.send(&net, &tuple(&[&rb, &text1]));
    let x = t.receive(&net, "x");
    let [_, token] = t.split(&x, ["text3", "token"]);
    let p = t.decrypt(&token, &kab, "p");
    let [r, who, _] = t.split(&p, ["r", "who", "text2"]);
    t.compare(&r, &rb);
    t.compare(&who, &b);

    let night = |answered: u16| {
        let mut v = TraceWriter::default();
        let start = [v.channel(0), v.plain(2), v.key(1), v.plain(101)];
        let rb = v.plain(20);
        let inside = [v.plain(answered), start[1], v.plain(102)];
        let (text3, token) = (v.plain(103), v.sealed(&inside, start[2]));
        let second = v.tuple(&[text3, token]);
        v.finish(&start, &[rb, second])
    };
    Role::new("verifier", t)
        .night("good", 0, night(20))
        .night("replayed", 2, night(19))
}
