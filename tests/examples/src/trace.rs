//! Writes a trace. Equal values get equal indexes, as they must.

use generate::raw::RawTrace;

/// A value of the trace in the making.
#[derive(Clone, Copy, PartialEq, Eq, Debug)]
pub struct Value(u16);

#[derive(Clone, Default)]
pub struct TraceWriter {
    raw: RawTrace,
}

impl TraceWriter {
    fn place(&mut self, tag: u8, a: u16, b: u16) -> Value {
        let ([a, b], [c, d]) = (a.to_be_bytes(), b.to_be_bytes());
        let entry = [tag, a, b, c, d];
        let found = self.raw.values.iter().position(|&value| value == entry);
        let index = found.unwrap_or_else(|| {
            self.raw.values.push(entry);
            self.raw.values.len() - 1
        });
        Value(index as u16)
    }

    /// A nonce, a time, a text or who somebody is.
    pub fn plain(&mut self, number: u16) -> Value {
        self.place(0, 0, number)
    }

    pub fn channel(&mut self, number: u16) -> Value {
        self.place(0, 1, number)
    }

    pub fn key(&mut self, number: u16) -> Value {
        self.place(0, 2, number)
    }

    /// A tuple: pairs nested to the right.
    pub fn tuple(&mut self, parts: &[Value]) -> Value {
        match parts {
            [] => panic!("a tuple has a part"),
            [last] => *last,
            [first, rest @ ..] => {
                let rest = self.tuple(rest);
                self.place(1, first.0, rest.0)
            }
        }
    }

    /// A tuple encrypted under a key.
    pub fn sealed(&mut self, parts: &[Value], key: Value) -> Value {
        let inside = self.tuple(parts);
        self.place(2, inside.0, key.0)
    }

    /// The bytes, with these starting values (free symbols by index) and this supply.
    pub fn finish(mut self, starting: &[Value], supply: &[Value]) -> Vec<u8> {
        self.raw.starting = starting.iter().map(|value| value.0).collect();
        self.raw.supply = supply.iter().map(|value| value.0).collect();
        self.raw.bytes()
    }
}
