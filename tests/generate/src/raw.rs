//! Files as entries, not necessarily fine ones: what the faults and changes work on.

use second::list::List;
use second::trace::Trace;

#[derive(Clone, Debug, Default)]
pub struct RawTable {
    pub symbols: Vec<u8>,
    pub terms: Vec<[u8; 3]>,
    pub steps: Vec<[u8; 5]>,
}

impl RawTable {
    pub fn bytes(&self) -> Vec<u8> {
        let mut out = b"SPT\x00\x01".to_vec();
        out.extend([self.symbols.len(), self.terms.len(), self.steps.len()].map(|n| n as u8));
        out.extend(&self.symbols);
        out.extend(self.terms.concat());
        out.extend(self.steps.concat());
        out
    }

    /// Inserts a term; terms named by other terms and by steps move with their places.
    pub fn insert_term(&mut self, at: usize, entry: [u8; 3]) {
        let moved = |t: u8| if usize::from(t) >= at { t + 1 } else { t };
        for term in &mut self.terms {
            if term[0] != 0 {
                *term = [term[0], moved(term[1]), moved(term[2])];
            }
        }
        for step in &mut self.steps {
            let (a, b) = term_fields(step[0]);
            step[1] = if a { moved(step[1]) } else { step[1] };
            step[2] = if b { moved(step[2]) } else { step[2] };
        }
        self.terms.insert(at, entry);
    }

    /// The index of a term, appended if it isn't there.
    pub fn term(&mut self, entry: [u8; 3]) -> u8 {
        let found = self.terms.iter().position(|&t| t == entry);
        found.unwrap_or_else(|| {
            self.terms.push(entry);
            self.terms.len() - 1
        }) as u8
    }

    /// A new symbol of this sort; its index.
    pub fn symbol(&mut self, sort: u8) -> u8 {
        self.symbols.push(sort);
        (self.symbols.len() - 1) as u8
    }

    /// The symbols that the step binds.
    pub fn binds(&self, step: usize) -> Vec<u8> {
        let entry = self.steps[step];
        let (x, y) = symbol_fields(entry[0]);
        let mut bound = Vec::new();
        bound.extend(x.then_some(entry[3]));
        bound.extend(y.then_some(entry[4]));
        bound
    }
}

/// Whether a step of this code uses a and b.
pub fn term_fields(op: u8) -> (bool, bool) {
    match op {
        0 | 3 | 5 => (true, true),
        1 | 4 => (true, false),
        _ => (false, false),
    }
}

/// Whether a step of this code uses x and y.
pub fn symbol_fields(op: u8) -> (bool, bool) {
    match op {
        1 | 2 | 5 => (true, false),
        4 => (true, true),
        _ => (false, false),
    }
}

/// Whether a statement of this code uses p, q and s.
pub fn statement_fields(op: u8) -> (bool, bool, bool) {
    match op {
        0 | 3 | 7 | 8 => (true, true, false),
        1 | 4 | 5 => (true, false, true),
        2 => (false, false, true),
        _ => (true, true, true),
    }
}

#[derive(Clone, Debug, Default)]
pub struct RawList {
    pub types: Vec<Vec<u8>>,
    pub statements: Vec<[u8; 4]>,
}

impl RawList {
    pub fn of(list: &List) -> RawList {
        RawList {
            types: list.types.iter().map(|t| t.bytes()).collect(),
            statements: list.statements.iter().map(|s| s.bytes()).collect(),
        }
    }

    pub fn bytes(&self) -> Vec<u8> {
        let mut out = b"SPL\x00\x01".to_vec();
        out.push(self.types.len() as u8);
        out.extend((self.statements.len() as u16).to_be_bytes());
        for bytes in &self.types {
            out.push(bytes.len() as u8);
            out.extend(bytes);
        }
        out.extend(self.statements.concat());
        out
    }

    /// The number of registers given before this statement.
    pub fn registers_before(&self, free: usize, statement: usize) -> usize {
        let earlier = &self.statements[..statement];
        free + earlier.iter().filter(|s| second::list::gives_register(s[0])).count()
    }

    /// Inserts a statement; if it gives a register, later statements name the moved registers.
    pub fn insert(&mut self, free: usize, at: usize, entry: [u8; 4]) {
        if second::list::gives_register(entry[0]) {
            let given = self.registers_before(free, at);
            self.rename(at, |r| {
                if usize::from(r) >= given {
                    r.saturating_add(1)
                } else {
                    r
                }
            });
        }
        self.statements.insert(at, entry);
    }

    /// Takes a statement out; later statements name the moved registers, and another one where they named its own.
    pub fn remove(&mut self, free: usize, at: usize) {
        let entry = self.statements.remove(at);
        if second::list::gives_register(entry[0]) {
            let given = self.registers_before(free, at);
            self.rename(at, |r| {
                if usize::from(r) >= given {
                    r.saturating_sub(1)
                } else {
                    r
                }
            });
        }
    }

    fn rename(&mut self, from: usize, name: impl Fn(u8) -> u8) {
        for entry in &mut self.statements[from..] {
            let (p, q, _) = statement_fields(entry[0]);
            entry[1] = if p { name(entry[1]) } else { entry[1] };
            entry[2] = if q { name(entry[2]) } else { entry[2] };
        }
    }
}

#[derive(Clone, Debug, Default)]
pub struct RawTrace {
    pub values: Vec<[u8; 5]>,
    pub starting: Vec<u16>,
    pub supply: Vec<u16>,
}

impl RawTrace {
    pub fn of(trace: &Trace) -> RawTrace {
        let narrow = |indexes: &[usize]| indexes.iter().map(|&i| i as u16).collect();
        RawTrace {
            values: trace.values.iter().map(|v| v.bytes()).collect(),
            starting: narrow(&trace.starting),
            supply: narrow(&trace.supply),
        }
    }

    pub fn bytes(&self) -> Vec<u8> {
        let mut out = b"SPX\x00\x01".to_vec();
        out.extend((self.values.len() as u16).to_be_bytes());
        out.extend((self.supply.len() as u16).to_be_bytes());
        out.push(self.starting.len() as u8);
        out.extend(self.values.concat());
        for index in self.starting.iter().chain(&self.supply) {
            out.extend(index.to_be_bytes());
        }
        out
    }
}
