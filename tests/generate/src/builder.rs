//! Builds typed tables step by step. Every symbol gets a planned type, and only steps and terms that fit the plan are made:
//! so the plan is a typing, and the table has one.

use second::types::Type;

use crate::raw::RawTable;
use crate::rng::Rng;

/// How large the table may get.
#[derive(Clone, Copy, Debug)]
pub struct Limits {
    pub symbols: usize,
    pub terms: usize,
    pub steps: usize,
}

#[derive(Clone, Debug)]
pub struct Builder {
    pub raw: RawTable,
    pub limits: Limits,
    /// The planned type of each symbol.
    plan: Vec<Type>,
    /// The symbols that no step has taken apart yet.
    whole: Vec<usize>,
    /// The least type of each term under the plan; none where it would be large.
    term_types: Vec<Option<Type>>,
}

/// Types of terms are kept up to this many bytes; the rest of the terms are only ever used as messages.
const LARGE: usize = 140;

impl Builder {
    pub fn new(limits: Limits) -> Builder {
        Builder {
            raw: RawTable::default(),
            limits,
            plan: Vec::new(),
            whole: Vec::new(),
            term_types: Vec::new(),
        }
    }

    /// A new symbol with its planned type, if there is room.
    pub fn symbol(&mut self, sort: u8, plan: Type) -> Option<usize> {
        if self.plan.len() >= self.limits.symbols {
            return None;
        }
        self.raw.symbols.push(sort);
        self.plan.push(plan);
        self.whole.push(self.plan.len() - 1);
        Some(self.plan.len() - 1)
    }

    /// The term's index; it is appended if it isn't there and there is room.
    pub fn term(&mut self, entry: [u8; 3]) -> Option<usize> {
        if let Some(found) = self.raw.terms.iter().position(|&t| t == entry) {
            return Some(found);
        }
        if self.raw.terms.len() >= self.limits.terms {
            return None;
        }
        let (a, b) = (usize::from(entry[1]), usize::from(entry[2]));
        let kept = |t: Option<Type>| t.filter(|t| t.bytes().len() <= LARGE);
        let least = match entry[0] {
            0 => Some(self.plan[a].clone()),
            1 => match (&self.term_types[a], &self.term_types[b]) {
                (Some(left), Some(right)) => kept(Some(Type::pair(left.clone(), right.clone()))),
                _ => None,
            },
            _ => kept(self.term_types[a].clone().map(Type::cipher)),
        };
        self.term_types.push(least);
        self.raw.terms.push(entry);
        Some(self.raw.terms.len() - 1)
    }

    pub fn symbol_term(&mut self, symbol: usize) -> Option<usize> {
        self.term([0, symbol as u8, 0])
    }

    /// A term with this type: one that is there, a symbol, or one made of parts that have the part's types.
    pub fn term_of(&mut self, rng: &mut Rng, wanted: &Type, depth: usize) -> Option<usize> {
        let fits = |t: &Option<Type>| match t {
            Some(t) => t.below(wanted),
            None => *wanted == Type::Message,
        };
        let terms: Vec<usize> = (0..self.term_types.len())
            .filter(|&t| fits(&self.term_types[t]))
            .collect();
        let symbols: Vec<usize> = (0..self.plan.len()).filter(|&s| self.plan[s].below(wanted)).collect();
        if depth > 0 && rng.once_in(2) {
            return self.compound(rng, wanted, depth);
        }
        if !terms.is_empty() && rng.once_in(2) {
            return Some(rng.pick(&terms));
        }
        if let Some(symbol) = rng.pick_any(&symbols) {
            return self.symbol_term(symbol);
        }
        self.compound(rng, wanted, depth)
    }

    /// A pair or an encryption with this type, or a new free symbol.
    fn compound(&mut self, rng: &mut Rng, wanted: &Type, depth: usize) -> Option<usize> {
        let below = depth.saturating_sub(1);
        match wanted {
            Type::Pair(left, right) => {
                let a = self.term_of(rng, left, below)?;
                let b = self.term_of(rng, right, below)?;
                self.term([1, a as u8, b as u8])
            }
            Type::Cipher(inside) => {
                let a = self.term_of(rng, inside, below)?;
                let b = self.term_of(rng, &Type::ShKey, 0)?;
                self.term([2, a as u8, b as u8])
            }
            Type::Message if depth > 0 && rng.once_in(2) => {
                let whole = Type::pair(Type::Message, Type::Message);
                self.compound(rng, &whole, depth)
            }
            Type::Message if depth > 0 => self.compound(rng, &Type::cipher(Type::Message), depth),
            _ => {
                let sort = u8::from(rng.once_in(3) || !wanted.below(&Type::Name));
                let s = self.symbol(sort, wanted.clone())?;
                self.symbol_term(s)
            }
        }
    }

    /// Appends one step that fits the plan; false, and nothing is changed, if there is no room.
    pub fn step(&mut self, rng: &mut Rng, depth: usize) -> bool {
        if self.raw.steps.len() >= self.limits.steps {
            return false;
        }
        match self.undone_if_none(|builder| builder.some_step(rng, depth)) {
            Some(entry) => {
                self.raw.steps.push(entry);
                true
            }
            None => false,
        }
    }

    /// Does something; symbols and terms that it added go again if it comes to nothing.
    pub fn undone_if_none<T>(&mut self, make: impl FnOnce(&mut Builder) -> Option<T>) -> Option<T> {
        let (symbols, terms, whole) = (self.plan.len(), self.raw.terms.len(), self.whole.clone());
        let made = make(self);
        if made.is_none() {
            self.raw.symbols.truncate(symbols);
            self.plan.truncate(symbols);
            self.raw.terms.truncate(terms);
            self.term_types.truncate(terms);
            self.whole = whole;
        }
        made
    }

    fn some_step(&mut self, rng: &mut Rng, depth: usize) -> Option<[u8; 5]> {
        // Symbols that can be taken apart are, more often than not.
        if !rng.once_in(3) {
            let entry = self.undone_if_none(|builder| builder.take_apart(rng));
            if entry.is_some() {
                return entry;
            }
        }
        match rng.below(6) {
            0 => {
                let a = self.term_of(rng, &Type::Channel, 0)?;
                let b = self.term_of(rng, &Type::Message, depth)?;
                Some([0, a as u8, b as u8, 0, 0])
            }
            1 => {
                let a = self.term_of(rng, &Type::Channel, 0)?;
                let size = rng.within(1, 2 + 2 * depth);
                let x = self.symbol(1, some_type(rng, size))?;
                Some([1, a as u8, 0, x as u8, 0])
            }
            2 => {
                let plan = rng.pick(&[Type::Name, Type::Channel, Type::ShKey]);
                let x = self.symbol(0, plan)?;
                Some([2, 0, 0, x as u8, 0])
            }
            3 => {
                let a = self.term_of(rng, &Type::Message, depth)?;
                let b = self.term_of(rng, &Type::Message, depth)?;
                Some([3, a as u8, b as u8, 0, 0])
            }
            4 => {
                let left = some_type(rng, 2);
                let right = some_type(rng, 2);
                let a = self.term_of(rng, &Type::pair(left.clone(), right.clone()), depth)?;
                self.split(rng, a, left, right)
            }
            _ => {
                let inside = some_type(rng, 2);
                let a = self.term_of(rng, &Type::cipher(inside.clone()), depth)?;
                self.decrypt(rng, a, inside)
            }
        }
    }

    /// A split or a decryption of a symbol that no step has taken apart yet.
    pub fn take_apart(&mut self, rng: &mut Rng) -> Option<[u8; 5]> {
        let ready: Vec<usize> = self
            .whole
            .iter()
            .copied()
            .filter(|&s| matches!(self.plan[s], Type::Pair(..) | Type::Cipher(_)))
            .collect();
        let symbol = rng.pick_any(&ready)?;
        self.whole.retain(|&s| s != symbol);
        let a = self.symbol_term(symbol)?;
        match self.plan[symbol].clone() {
            Type::Pair(left, right) => self.split(rng, a, *left, *right),
            Type::Cipher(inside) => self.decrypt(rng, a, *inside),
            _ => None,
        }
    }

    fn split(&mut self, rng: &mut Rng, a: usize, left: Type, right: Type) -> Option<[u8; 5]> {
        let x = self.symbol(1, sometimes_wider(rng, left))?;
        let y = self.symbol(1, sometimes_wider(rng, right))?;
        let (x, y) = if rng.once_in(2) { self.swapped(x, y) } else { (x, y) };
        Some([4, a as u8, 0, x as u8, y as u8])
    }

    /// The same two symbols with their plans, the other way round.
    fn swapped(&mut self, x: usize, y: usize) -> (usize, usize) {
        self.plan.swap(x, y);
        (y, x)
    }

    fn decrypt(&mut self, rng: &mut Rng, a: usize, inside: Type) -> Option<[u8; 5]> {
        let b = self.term_of(rng, &Type::ShKey, 0)?;
        let x = self.symbol(1, sometimes_wider(rng, inside))?;
        Some([5, a as u8, b as u8, x as u8, 0])
    }
}

fn sometimes_wider(rng: &mut Rng, plan: Type) -> Type {
    if rng.once_in(6) {
        Type::Message
    } else {
        plan
    }
}

/// A type with about so many parts.
pub fn some_type(rng: &mut Rng, size: usize) -> Type {
    if size <= 1 {
        return rng.pick(&[Type::Message, Type::Message, Type::Name, Type::Channel, Type::ShKey]);
    }
    if rng.once_in(3) {
        return Type::cipher(some_type(rng, size - 1));
    }
    let left = rng.within(1, size - 1);
    let (left, right) = (some_type(rng, left), some_type(rng, size - left));
    Type::pair(left, right)
}
