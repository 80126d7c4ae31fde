//! The Wide Mouthed Frog: a sends a key to b by way of the server, with times.

use crate::role::{Protocol, Role};
use crate::table::{sealed, tuple, TableWriter};
use crate::trace::{TraceWriter, Value};

pub fn protocol() -> Protocol {
    Protocol {
        folder: "wide-mouthed-frog",
        roles: vec![alice(), server(), bob()],
    }
}

/// The values that all roles share.
struct World {
    v: TraceWriter,
    net: Value,
    clock: Value,
    a: Value,
    b: Value,
    kas: Value,
    kbs: Value,
    kab: Value,
    message: Value,
}

fn world() -> World {
    let mut v = TraceWriter::default();
    World {
        net: v.channel(0),
        clock: v.channel(1),
        a: v.plain(1),
        b: v.plain(2),
        kas: v.key(1),
        kbs: v.key(2),
        kab: v.key(3),
        message: v.plain(100),
        v,
    }
}

fn alice() -> Role {
    let mut t = TableWriter::default();
    let [net, clock, a, b, kas] = t.names(["net", "clock", "a", "b", "kas"]);
    let message = t.variable("message");
    let kab = t.fresh("kab");
    let time = t.receive(&clock, "time");
    t.send(&net, &tuple(&[&a, &sealed(&[&time, &b, &kab], &kas)]));
    t.send(&net, &sealed(&[&message], &kab));

    let night = |key: fn(&mut World) -> Value| {
        let mut w = world();
        let (kab, time) = (key(&mut w), w.v.plain(50));
        w.v.finish(&[w.net, w.clock, w.a, w.b, w.kas, w.message], &[kab, time])
    };
    Role::new("alice", t)
        .night("good", 0, night(|w| w.kab))
        .night("weak-key", 7, night(|w| w.v.plain(3)))
}

fn server() -> Role {
    let mut t = TableWriter::default();
    let [net, clock, a, b, kas, kbs] = t.names(["net", "clock", "a", "b", "kas", "kbs"]);
    let x = t.receive(&net, "x");
    let [from, token] = t.split(&x, ["from", "token"]);
    t.compare(&from, &a);
    let p = t.decrypt(&token, &kas, "p");
    let [time, to, kab] = t.split(&p, ["time", "to", "kab"]);
    t.compare(&to, &b);
    let now = t.receive(&clock, "now");
    t.compare(&time, &now);
    t.send(&net, &sealed(&[&now, &a, &kab], &kbs));

    let night = |sent: u16, now: u16| {
        let mut w = world();
        let (sent, now) = (w.v.plain(sent), w.v.plain(now));
        let token = w.v.sealed(&[sent, w.b, w.kab], w.kas);
        let first = w.v.tuple(&[w.a, token]);
        w.v.finish(&[w.net, w.clock, w.a, w.b, w.kas, w.kbs], &[first, now])
    };
    Role::new("server", t)
        .night("good", 0, night(50, 50))
        .night("stale", 2, night(49, 50))
}

fn bob() -> Role {
    let mut t = TableWriter::default();
    let [net, clock, a, kbs, shelf] = t.names(["net", "clock", "a", "kbs", "shelf"]);
    let x = t.receive(&net, "x");
    let p = t.decrypt(&x, &kbs, "p");
    let [time, from, kab] = t.split(&p, ["time", "from", "kab"]);
    t.compare(&from, &a);
    let now = t.receive(&clock, "now");
    t.compare(&time, &now);
    let y = t.receive(&net, "y");
    let message = t.decrypt(&y, &kab, "message");
    t.send(&shelf, &message);

    let night = |key: fn(&mut World) -> Value| {
        let mut w = world();
        let (now, shelf, used) = (w.v.plain(50), w.v.channel(2), key(&mut w));
        let first = w.v.sealed(&[now, w.a, w.kab], w.kbs);
        let second = w.v.sealed(&[w.message], used);
        w.v.finish(&[w.net, w.clock, w.a, w.kbs, shelf], &[first, now, second])
    };
    Role::new("bob", t)
        .night("good", 0, night(|w| w.kab))
        .night("forged", 3, night(|w| w.v.key(9)))
}
