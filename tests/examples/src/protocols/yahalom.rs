//! Yahalom: the server sends the key and a ticket to a, and a proves to b that it has the key.

use crate::role::{Protocol, Role};
use crate::table::{sealed, tuple, TableWriter};
use crate::trace::Value;
use crate::world::World;

pub fn protocol() -> Protocol {
    Protocol {
        folder: "yahalom",
        roles: vec![alice(), bob(), server()],
    }
}

fn alice() -> Role {
    let mut t = TableWriter::default();
    let [net, a, b, kas] = t.names(["net", "a", "b", "kas"]);
    let na = t.fresh("na");
    t.send(&net, &tuple(&[&a, &na]));
    let x = t.receive(&net, "x");
    let [token, ticket] = t.split(&x, ["token", "ticket"]);
    let p = t.decrypt(&token, &kas, "p");
    let [who, kab, n, nb] = t.split(&p, ["who", "kab", "n", "nb"]);
    t.compare(&who, &b);
    t.compare(&n, &na);
    t.send(&net, &tuple(&[&ticket, &sealed(&[&nb], &kab)]));

    let night = |answered: u16| {
        let mut w = World::create();
        let answered = w.v.plain(answered);
        let token = w.v.sealed(&[w.b, w.kab, answered, w.nb], w.kas);
        let ticket = w.v.sealed(&[w.a, w.kab], w.kbs);
        let third = w.v.tuple(&[token, ticket]);
        w.v.finish(&[w.net, w.a, w.b, w.kas], &[w.na, third])
    };
    Role::new("alice", t)
        .night("good", 0, night(10))
        .night("replayed", 2, night(9))
}

fn bob() -> Role {
    let mut t = TableWriter::default();
    let [net, a, b, kbs] = t.names(["net", "a", "b", "kbs"]);
    let x = t.receive(&net, "x");
    let [from, na] = t.split(&x, ["from", "na"]);
    t.compare(&from, &a);
    let nb = t.fresh("nb");
    t.send(&net, &tuple(&[&b, &sealed(&[&a, &na, &nb], &kbs)]));
    let y = t.receive(&net, "y");
    let [ticket, proof] = t.split(&y, ["ticket", "proof"]);
    let p = t.decrypt(&ticket, &kbs, "p");
    let [who, kab] = t.split(&p, ["who", "kab"]);
    t.compare(&who, &a);
    let n = t.decrypt(&proof, &kab, "n");
    t.compare(&n, &nb);

    let night = |proof_key: u16| {
        let mut w = World::create();
        let proof_key = w.v.key(proof_key);
        let first = w.v.tuple(&[w.a, w.na]);
        let ticket = w.v.sealed(&[w.a, w.kab], w.kbs);
        let proof = w.v.sealed(&[w.nb], proof_key);
        let fourth = w.v.tuple(&[ticket, proof]);
        w.v.finish(&[w.net, w.a, w.b, w.kbs], &[first, w.nb, fourth])
    };
    Role::new("bob", t)
        .night("good", 0, night(3))
        .night("wrong-key", 3, night(4))
}

fn server() -> Role {
    let mut t = TableWriter::default();
    let [net, a, b, kas, kbs] = t.names(["net", "a", "b", "kas", "kbs"]);
    let x = t.receive(&net, "x");
    let [from, token] = t.split(&x, ["from", "token"]);
    t.compare(&from, &b);
    let p = t.decrypt(&token, &kbs, "p");
    let [who, na, nb] = t.split(&p, ["who", "na", "nb"]);
    t.compare(&who, &a);
    let kab = t.fresh("kab");
    let token = sealed(&[&b, &kab, &na, &nb], &kas);
    t.send(&net, &tuple(&[&token, &sealed(&[&a, &kab], &kbs)]));

    let night = |key: fn(&World) -> Value| {
        let mut w = World::create();
        let token = w.v.sealed(&[w.a, w.na, w.nb], w.kbs);
        let second = w.v.tuple(&[w.b, token]);
        let key = key(&w);
        w.v.finish(&[w.net, w.a, w.b, w.kas, w.kbs], &[second, key])
    };
    Role::new("server", t)
        .night("good", 0, night(|w| w.kab))
        .night("used-key", 6, night(|w| w.kas))
}
