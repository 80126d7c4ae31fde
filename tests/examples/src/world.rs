//! The values that the roles of a protocol with a server share.

use crate::trace::{TraceWriter, Value};

/// Two people on one channel, their keys with the server, the key that they get, and a nonce of each.
pub struct World {
    pub v: TraceWriter,
    pub net: Value,
    pub a: Value,
    pub b: Value,
    pub kas: Value,
    pub kbs: Value,
    pub kab: Value,
    pub na: Value,
    pub nb: Value,
}

impl World {
    pub fn create() -> Self {
        let mut v = TraceWriter::default();
        World {
            net: v.channel(0),
            a: v.plain(1),
            b: v.plain(2),
            kas: v.key(1),
            kbs: v.key(2),
            kab: v.key(3),
            na: v.plain(10),
            nb: v.plain(20),
            v,
        }
    }
}
