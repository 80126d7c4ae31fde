//! Writes a role table step by step. Symbols get the next index where they first occur, free ones first.

use generate::raw::RawTable;

/// A term of the table in the making.
#[derive(Clone, PartialEq, Eq, Debug)]
pub enum Term {
    Symbol(u8),
    Pair(Box<Term>, Box<Term>),
    Sealed(Box<Term>, Box<Term>),
}

/// A tuple: pairs nested to the right.
pub fn tuple(parts: &[&Term]) -> Term {
    match parts {
        [] => panic!("a tuple has a part"),
        [last] => (*last).clone(),
        [first, rest @ ..] => Term::Pair(Box::new((*first).clone()), Box::new(tuple(rest))),
    }
}

/// A tuple encrypted under a key.
pub fn sealed(parts: &[&Term], key: &Term) -> Term {
    Term::Sealed(Box::new(tuple(parts)), Box::new(key.clone()))
}

#[derive(Default)]
pub struct TableWriter {
    raw: RawTable,
    /// What the symbols are called, by index. The file has no room for it.
    names: Vec<String>,
    /// The steps in the paper's notation.
    steps: Vec<String>,
    /// How many rests of tuples there are.
    rests: usize,
}

/// A table that is written: its bytes, what its symbols are called, and its steps in the paper's notation.
pub struct Written {
    pub bytes: Vec<u8>,
    pub symbols: Vec<String>,
    pub steps: Vec<String>,
}

const NAME: u8 = 0;
const VARIABLE: u8 = 1;

impl TableWriter {
    fn symbol(&mut self, sort: u8, called: &str) -> (u8, Term) {
        self.names.push(called.to_string());
        let index = self.raw.symbol(sort);
        (index, Term::Symbol(index))
    }

    /// The term's index; the term and its parts are added where they are not there yet.
    fn term(&mut self, term: &Term) -> u8 {
        let entry = match term {
            Term::Symbol(s) => [0, *s, 0],
            Term::Pair(a, b) => [1, self.term(a), self.term(b)],
            Term::Sealed(a, b) => [2, self.term(a), self.term(b)],
        };
        self.raw.term(entry)
    }

    fn step(&mut self, op: u8, terms: &[&Term], x: u8, y: u8, words: String) {
        let mut fields = [0; 2];
        for (field, term) in fields.iter_mut().zip(terms) {
            *field = self.term(term);
        }
        self.raw.steps.push([op, fields[0], fields[1], x, y]);
        self.steps.push(words);
    }

    /// A term in the paper's notation; pairs to the right are written as one tuple.
    fn words(&self, term: &Term) -> String {
        match term {
            Term::Symbol(s) => self.names[usize::from(*s)].clone(),
            Term::Pair(..) => format!("({})", self.inside(term)),
            Term::Sealed(inside, key) => format!("{{{}}}{}", self.inside(inside), self.words(key)),
        }
    }

    /// The parts of a tuple, without the brackets around them.
    fn inside(&self, term: &Term) -> String {
        match term {
            Term::Pair(a, b) => format!("{}, {}", self.words(a), self.inside(b)),
            other => self.words(other),
        }
    }

    /// Free names.
    pub fn names<const N: usize>(&mut self, called: [&str; N]) -> [Term; N] {
        called.map(|one| self.symbol(NAME, one).1)
    }

    /// A free variable.
    pub fn variable(&mut self, called: &str) -> Term {
        self.symbol(VARIABLE, called).1
    }

    pub fn send(&mut self, channel: &Term, message: &Term) {
        let words = format!("{}⟨{}⟩", self.words(channel), self.inside(message));
        self.step(0, &[channel, message], 0, 0, words);
    }

    pub fn receive(&mut self, channel: &Term, called: &str) -> Term {
        let (x, bound) = self.symbol(VARIABLE, called);
        let words = format!("{}({called})", self.words(channel));
        self.step(1, &[channel], x, 0, words);
        bound
    }

    pub fn fresh(&mut self, called: &str) -> Term {
        let (x, bound) = self.symbol(NAME, called);
        self.step(2, &[], x, 0, format!("(ν {called})"));
        bound
    }

    pub fn compare(&mut self, a: &Term, b: &Term) {
        let words = format!("[{} is {}]", self.words(a), self.words(b));
        self.step(3, &[a, b], 0, 0, words);
    }

    /// Splits a tuple into its parts, which are called so. What is left after each part but the last two is a rest.
    pub fn split<const N: usize>(&mut self, whole: &Term, called: [&str; N]) -> [Term; N] {
        let mut parts = Vec::new();
        let mut whole = whole.clone();
        for (i, one) in called.into_iter().enumerate().take(N - 1) {
            let other = if i + 2 == N {
                called[N - 1].to_string()
            } else {
                self.rests += 1;
                format!("rest{}", self.rests)
            };
            let (x, left) = self.symbol(VARIABLE, one);
            let (y, right) = self.symbol(VARIABLE, &other);
            let words = format!("let ({one}, {other}) = {} in", self.words(&whole));
            self.step(4, &[&whole], x, y, words);
            parts.push(left);
            whole = right;
        }
        parts.push(whole);
        parts.try_into().expect("N parts")
    }

    pub fn decrypt(&mut self, whole: &Term, key: &Term, called: &str) -> Term {
        let (x, bound) = self.symbol(VARIABLE, called);
        let words = format!("case {} of {{{called}}}{} in", self.words(whole), self.words(key));
        self.step(5, &[whole, key], x, 0, words);
        bound
    }

    pub fn finish(self) -> Written {
        Written {
            bytes: self.raw.bytes(),
            symbols: self.names,
            steps: self.steps,
        }
    }
}
