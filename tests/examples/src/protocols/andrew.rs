//! Andrew Secure RPC: a handshake under the old key, then the new key. One more than n is the pair (n, one).

use crate::role::{Protocol, Role};
use crate::table::{sealed, tuple, TableWriter};
use crate::trace::{TraceWriter, Value};

pub fn protocol() -> Protocol {
    Protocol {
        folder: "andrew-secure-rpc",
        roles: vec![alice(), bob()],
    }
}

/// The values that both roles share.
struct World {
    v: TraceWriter,
    net: Value,
    a: Value,
    kab: Value,
    one: Value,
    na: Value,
    nb: Value,
    knew: Value,
    nnew: Value,
    message: Value,
}

fn world() -> World {
    let mut v = TraceWriter::default();
    World {
        net: v.channel(0),
        a: v.plain(1),
        kab: v.key(1),
        one: v.plain(0),
        na: v.plain(10),
        nb: v.plain(20),
        knew: v.key(3),
        nnew: v.plain(21),
        message: v.plain(100),
        v,
    }
}

fn alice() -> Role {
    let mut t = TableWriter::default();
    let [net, a, kab, one] = t.names(["net", "a", "kab", "one"]);
    let message = t.variable("message");
    let na = t.fresh("na");
    t.send(&net, &tuple(&[&a, &sealed(&[&na], &kab)]));
    let x = t.receive(&net, "x");
    let p = t.decrypt(&x, &kab, "p");
    let [next, nb] = t.split(&p, ["next", "nb"]);
    t.compare(&next, &tuple(&[&na, &one]));
    t.send(&net, &sealed(&[&nb, &one], &kab));
    let y = t.receive(&net, "y");
    let q = t.decrypt(&y, &kab, "q");
    let [knew, _] = t.split(&q, ["knew", "nnew"]);
    t.send(&net, &sealed(&[&message], &knew));

    // What stands in the fourth message where the new key belongs, and beside it.
    let night = |fourth: fn(&mut World) -> [Value; 2]| {
        let mut w = world();
        let next = w.v.tuple(&[w.na, w.one]);
        let second = w.v.sealed(&[next, w.nb], w.kab);
        let inside = fourth(&mut w);
        let fourth = w.v.sealed(&inside, w.kab);
        w.v.finish(&[w.net, w.a, w.kab, w.one, w.message], &[w.na, second, fourth])
    };
    Role::new("alice", t)
        .night("good", 0, night(|w| [w.knew, w.nnew]))
        .night("reflected", 5, night(|w| [w.v.tuple(&[w.na, w.one]), w.nb]))
        .night("old-key", 0, night(|w| [w.v.key(2), w.v.plain(11)]))
}

fn bob() -> Role {
    let mut t = TableWriter::default();
    let [net, a, kab, one, shelf] = t.names(["net", "a", "kab", "one", "shelf"]);
    let x = t.receive(&net, "x");
    let [from, token] = t.split(&x, ["from", "token"]);
    t.compare(&from, &a);
    let na = t.decrypt(&token, &kab, "na");
    let nb = t.fresh("nb");
    t.send(&net, &sealed(&[&tuple(&[&na, &one]), &nb], &kab));
    let y = t.receive(&net, "y");
    let next = t.decrypt(&y, &kab, "next");
    t.compare(&next, &tuple(&[&nb, &one]));
    let knew = t.fresh("knew");
    let nnew = t.fresh("nnew");
    t.send(&net, &sealed(&[&knew, &nnew], &kab));
    let z = t.receive(&net, "z");
    let message = t.decrypt(&z, &knew, "message");
    t.send(&shelf, &message);

    let night = |answered: u16| {
        let mut w = world();
        let (shelf, answered) = (w.v.channel(1), w.v.plain(answered));
        let token = w.v.sealed(&[w.na], w.kab);
        let first = w.v.tuple(&[w.a, token]);
        let third = w.v.sealed(&[answered, w.one], w.kab);
        let fifth = w.v.sealed(&[w.message], w.knew);
        let supply = [first, w.nb, third, w.knew, w.nnew, fifth];
        w.v.finish(&[w.net, w.a, w.kab, w.one, shelf], &supply)
    };
    Role::new("bob", t)
        .night("good", 0, night(20))
        .night("replayed", 2, night(19))
}
