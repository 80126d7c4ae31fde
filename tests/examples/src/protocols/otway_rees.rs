//! Otway and Rees: both ask the server at once, and each finds the own nonce beside the key.

use crate::role::{Protocol, Role};
use crate::table::{sealed, tuple, TableWriter};
use crate::trace::Value;
use crate::world::World;

pub fn protocol() -> Protocol {
    Protocol {
        folder: "otway-rees",
        roles: vec![alice(), bob(), server()],
    }
}

fn alice() -> Role {
    let mut t = TableWriter::default();
    let [net, a, b, kas] = t.names(["net", "a", "b", "kas"]);
    let message = t.variable("message");
    let m = t.fresh("m");
    let na = t.fresh("na");
    t.send(&net, &tuple(&[&m, &a, &b, &sealed(&[&na, &m, &a, &b], &kas)]));
    let x = t.receive(&net, "x");
    let [m1, token] = t.split(&x, ["m1", "token"]);
    t.compare(&m1, &m);
    let p = t.decrypt(&token, &kas, "p");
    let [n, kab] = t.split(&p, ["n", "kab"]);
    t.compare(&n, &na);
    t.send(&net, &sealed(&[&message], &kab));

    let night = |inside: fn(&World, Value) -> Vec<Value>| {
        let mut w = World::create();
        let (m, message) = (w.v.plain(30), w.v.plain(100));
        let inside = inside(&w, m);
        let token = w.v.sealed(&inside, w.kas);
        let fourth = w.v.tuple(&[m, token]);
        w.v.finish(&[w.net, w.a, w.b, w.kas, message], &[m, w.na, fourth])
    };
    Role::new("alice", t)
        .night("good", 0, night(|w, _| vec![w.na, w.kab]))
        .night("reflected", 5, night(|w, m| vec![w.na, m, w.a, w.b]))
}

fn bob() -> Role {
    let mut t = TableWriter::default();
    let [net, a, b, kbs, shelf] = t.names(["net", "a", "b", "kbs", "shelf"]);
    let x = t.receive(&net, "x");
    let [m, from, to, token] = t.split(&x, ["m", "from", "to", "token"]);
    t.compare(&from, &a);
    t.compare(&to, &b);
    let nb = t.fresh("nb");
    t.send(&net, &tuple(&[&m, &a, &b, &token, &sealed(&[&nb, &m, &a, &b], &kbs)]));
    let y = t.receive(&net, "y");
    let [m1, for_a, for_b] = t.split(&y, ["m1", "for_a", "for_b"]);
    t.compare(&m1, &m);
    let p = t.decrypt(&for_b, &kbs, "p");
    let [n, kab] = t.split(&p, ["n", "kab"]);
    t.compare(&n, &nb);
    t.send(&net, &tuple(&[&m, &for_a]));
    let z = t.receive(&net, "z");
    let message = t.decrypt(&z, &kab, "message");
    t.send(&shelf, &message);

    let night = |answered: u16| {
        let mut w = World::create();
        let (m, message) = (w.v.plain(30), w.v.plain(100));
        let (shelf, answered) = (w.v.channel(1), w.v.plain(answered));
        let token = w.v.sealed(&[w.na, m, w.a, w.b], w.kas);
        let first = w.v.tuple(&[m, w.a, w.b, token]);
        let for_a = w.v.sealed(&[w.na, w.kab], w.kas);
        let for_b = w.v.sealed(&[answered, w.kab], w.kbs);
        let third = w.v.tuple(&[m, for_a, for_b]);
        let fifth = w.v.sealed(&[message], w.kab);
        w.v.finish(&[w.net, w.a, w.b, w.kbs, shelf], &[first, w.nb, third, fifth])
    };
    Role::new("bob", t)
        .night("good", 0, night(20))
        .night("replayed", 2, night(19))
}

fn server() -> Role {
    let mut t = TableWriter::default();
    let [net, a, b, kas, kbs] = t.names(["net", "a", "b", "kas", "kbs"]);
    let x = t.receive(&net, "x");
    let [m, from, to, of_a, of_b] = t.split(&x, ["m", "from", "to", "of_a", "of_b"]);
    t.compare(&from, &a);
    t.compare(&to, &b);
    let p = t.decrypt(&of_a, &kas, "p");
    let [na, m1, a1, b1] = t.split(&p, ["na", "m1", "a1", "b1"]);
    t.compare(&m1, &m);
    t.compare(&a1, &a);
    t.compare(&b1, &b);
    let q = t.decrypt(&of_b, &kbs, "q");
    let [nb, m2, a2, b2] = t.split(&q, ["nb", "m2", "a2", "b2"]);
    t.compare(&m2, &m);
    t.compare(&a2, &a);
    t.compare(&b2, &b);
    let kab = t.fresh("kab");
    t.send(
        &net,
        &tuple(&[&m, &sealed(&[&na, &kab], &kas), &sealed(&[&nb, &kab], &kbs)]),
    );

    let night = |of_b: u16| {
        let mut w = World::create();
        let (m, other) = (w.v.plain(30), w.v.plain(of_b));
        let of_a = w.v.sealed(&[w.na, m, w.a, w.b], w.kas);
        let of_b = w.v.sealed(&[w.nb, other, w.a, w.b], w.kbs);
        let second = w.v.tuple(&[m, w.a, w.b, of_a, of_b]);
        w.v.finish(&[w.net, w.a, w.b, w.kas, w.kbs], &[second, w.kab])
    };
    Role::new("server", t)
        .night("good", 0, night(30))
        .night("mixed", 2, night(29))
}
