//! The network's own exchange, and what went wrong with it: a list that had lost the comparison of the nonce.

use generate::raw::RawList;
use second::list::{Statement, COMPARE};
use second::service::judged;

use crate::role::{Protocol, Role};
use crate::table::{sealed, TableWriter};
use crate::trace::{TraceWriter, Value};

pub fn protocol() -> Protocol {
    Protocol {
        folder: "incident",
        roles: vec![asking(), answering(), keeping()],
    }
}

/// The branch that asks for tonight's edits: it sends a nonce, and takes only edits that come back with it.
fn asking() -> Role {
    let mut t = TableWriter::default();
    let [net, k, catalogue] = t.names(["net", "k", "catalogue"]);
    let n = t.fresh("n");
    t.send(&net, &n);
    let x = t.receive(&net, "x");
    let p = t.decrypt(&x, &k, "p");
    let [m, edits] = t.split(&p, ["m", "edits"]);
    t.compare(&m, &n);
    t.send(&catalogue, &edits);

    let night = |tonight: u16, answered: u16, edits: u16| {
        let mut v = TraceWriter::default();
        let start = [v.channel(0), v.key(0), v.channel(1)];
        let n = v.plain(tonight);
        let inside = [v.plain(answered), v.plain(edits)];
        let answer = v.sealed(&inside, start[1]);
        v.finish(&start, &[n, answer])
    };
    // A supply that gives the network's channel where a new name is due.
    let used_name = || {
        let mut v = TraceWriter::default();
        let start = [v.channel(0), v.key(0), v.channel(1)];
        v.finish(&start, &start[..1])
    };
    Role::new("asking", t)
        .other_list("firm", 12, without_comparison)
        .night("good", 0, night(2, 2, 102))
        .night("replayed", 2, night(2, 1, 101))
        .night("used-name", 6, used_name())
}

/// The role's list as entries, the number of free symbols, and the place of the first such statement.
fn list_and_place(role: &Role, wanted: fn(&Statement) -> bool) -> (RawList, usize, usize) {
    let (table, list) = judged(&role.table, &role.list).expect("the compiler's list is accepted");
    let at = list.statements.iter().position(wanted).expect("such a statement");
    (RawList::of(&list), table.free().len(), at)
}

/// The firm's list: the role's own without its comparison.
fn without_comparison(role: &Role) -> Vec<u8> {
    let (mut raw, free, at) = list_and_place(role, |s| s.op == COMPARE);
    raw.remove(free, at);
    raw.bytes()
}

/// Another firm's list: its first build is done twice, and that is allowed.
fn with_a_build_repeated(role: &Role) -> Vec<u8> {
    let (mut raw, free, at) = list_and_place(role, |s| s.is_build());
    raw.insert(free, at + 1, raw.statements[at]);
    raw.bytes()
}

/// The branch that answers: it gives back the nonce with the edits from its shelf, under the key.
fn answering() -> Role {
    let mut t = TableWriter::default();
    let [net, k, shelf] = t.names(["net", "k", "shelf"]);
    let n = t.receive(&net, "n");
    let edits = t.receive(&shelf, "edits");
    t.send(&net, &sealed(&[&n, &edits], &k));

    let night = |supplied: usize| {
        let mut v = TraceWriter::default();
        let start = [v.channel(0), v.key(0), v.channel(2)];
        let supply: [Value; 2] = [v.plain(2), v.plain(102)];
        v.finish(&start, &supply[..supplied])
    };
    Role::new("answering", t)
        .other_list("repeats", 0, with_a_build_repeated)
        .night("good", 0, night(2))
        .night("no-edits", 1, night(1))
}

/// The branch that asks and still keeps yesterday's answer, sealed: it is held, and so is all that is inside it.
fn keeping() -> Role {
    let mut t = TableWriter::default();
    let [net, k, catalogue, archive] = t.names(["net", "k", "catalogue", "archive"]);
    let old = t.variable("old");
    t.send(&archive, &old);
    let n = t.fresh("n");
    t.send(&net, &n);
    let x = t.receive(&net, "x");
    let p = t.decrypt(&x, &k, "p");
    let [m, edits] = t.split(&p, ["m", "edits"]);
    t.compare(&m, &n);
    t.send(&catalogue, &edits);

    // Yesterday's nonce is 1, and the answer that comes back is yesterday's or, to nonce 2, tonight's.
    let night = |tonight: u16, edits: u16| {
        let mut v = TraceWriter::default();
        let start = [v.channel(0), v.key(0), v.channel(1), v.channel(3)];
        let inside = [v.plain(1), v.plain(101)];
        let old = v.sealed(&inside, start[1]);
        let n = v.plain(tonight);
        let edits = v.plain(edits);
        let answer = v.sealed(&[n, edits], start[1]);
        v.finish(&[start.as_slice(), &[old]].concat(), &[n, answer])
    };
    Role::new("keeping", t)
        .night("good", 0, night(2, 102))
        .night("old-nonce", 6, night(1, 101))
}
