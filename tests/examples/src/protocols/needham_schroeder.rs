//! Needham and Schroeder with shared keys: the server hands out a key and a ticket.

use crate::role::{Protocol, Role};
use crate::table::{sealed, tuple, TableWriter};
use crate::trace::Value;
use crate::world::World;

pub fn protocol() -> Protocol {
    Protocol {
        folder: "needham-schroeder",
        roles: vec![alice(), server(), bob()],
    }
}

fn alice() -> Role {
    let mut t = TableWriter::default();
    let [net, a, b, kas] = t.names(["net", "a", "b", "kas"]);
    let na = t.fresh("na");
    t.send(&net, &tuple(&[&a, &b, &na]));
    let x = t.receive(&net, "x");
    let p = t.decrypt(&x, &kas, "p");
    let [n, who, kab, ticket] = t.split(&p, ["n", "who", "kab", "ticket"]);
    t.compare(&n, &na);
    t.compare(&who, &b);
    t.send(&net, &ticket);
    let y = t.receive(&net, "y");
    let nb = t.decrypt(&y, &kab, "nb");
    t.send(&net, &sealed(&[&nb, &nb], &kab));

    let night = |answered: u16| {
        let mut w = World::create();
        let answered = w.v.plain(answered);
        let ticket = w.v.sealed(&[w.kab, w.a], w.kbs);
        let second = w.v.sealed(&[answered, w.b, w.kab, ticket], w.kas);
        let fourth = w.v.sealed(&[w.nb], w.kab);
        w.v.finish(&[w.net, w.a, w.b, w.kas], &[w.na, second, fourth])
    };
    Role::new("alice", t)
        .night("good", 0, night(10))
        .night("replayed", 2, night(9))
}

fn server() -> Role {
    let mut t = TableWriter::default();
    let [net, a, b, kas, kbs] = t.names(["net", "a", "b", "kas", "kbs"]);
    let x = t.receive(&net, "x");
    let [from, to, n] = t.split(&x, ["from", "to", "n"]);
    t.compare(&from, &a);
    t.compare(&to, &b);
    let kab = t.fresh("kab");
    let ticket = sealed(&[&kab, &a], &kbs);
    t.send(&net, &sealed(&[&n, &b, &kab, &ticket], &kas));

    let night = |from: fn(&mut World) -> Value| {
        let mut w = World::create();
        let from = from(&mut w);
        let first = w.v.tuple(&[from, w.b, w.na]);
        w.v.finish(&[w.net, w.a, w.b, w.kas, w.kbs], &[first, w.kab])
    };
    Role::new("server", t)
        .night("good", 0, night(|w| w.a))
        .night("stranger", 2, night(|w| w.v.plain(7)))
}

fn bob() -> Role {
    let mut t = TableWriter::default();
    let [net, a, kbs] = t.names(["net", "a", "kbs"]);
    let x = t.receive(&net, "x");
    let p = t.decrypt(&x, &kbs, "p");
    let [kab, from] = t.split(&p, ["kab", "from"]);
    t.compare(&from, &a);
    let nb = t.fresh("nb");
    t.send(&net, &sealed(&[&nb], &kab));
    let y = t.receive(&net, "y");
    let q = t.decrypt(&y, &kab, "q");
    let [n1, n2] = t.split(&q, ["n1", "n2"]);
    t.compare(&n1, &nb);
    t.compare(&n2, &nb);

    // The ticket's key, and the key of the answer.
    let night = |ticket: u16, answer: u16| {
        let mut w = World::create();
        let (ticket_key, answer_key) = (w.v.key(ticket), w.v.key(answer));
        let third = w.v.sealed(&[ticket_key, w.a], w.kbs);
        let fifth = w.v.sealed(&[w.nb, w.nb], answer_key);
        w.v.finish(&[w.net, w.a, w.kbs], &[third, w.nb, fifth])
    };
    Role::new("bob", t)
        .night("good", 0, night(3, 3))
        .night("wrong-key", 3, night(3, 4))
        .night("old-ticket", 0, night(8, 8))
}
