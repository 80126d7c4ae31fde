//! Finds values that let a run go the way it is wanted: unknown values are merged where a comparison, a split or a decryption
//! asks for it, and get values of their visible types in the end.

use std::collections::HashMap;

use second::trace::{Value, CHANNEL, KEY, PLAIN};
use second::types::Type;

use crate::rng::Rng;

#[derive(Clone, Copy, PartialEq, Eq, Debug)]
pub enum Shape {
    Atom { kind: usize, number: usize },
    Pair(usize, usize),
    Encrypted(usize, usize),
}

/// Nodes are merged as in union-find; a merged node stands for one value.
#[derive(Clone, Debug, Default)]
pub struct Solver {
    parent: Vec<usize>,
    shape: Vec<Option<Shape>>,
    visible: Vec<Type>,
    atoms: usize,
}

/// The type with nothing said of the inside of ciphertexts.
fn visible(wanted: &Type) -> Type {
    match wanted {
        Type::Pair(left, right) => Type::pair(visible(left), visible(right)),
        Type::Cipher(_) => Type::cipher(Type::Message),
        other => other.clone(),
    }
}

impl Solver {
    fn node(&mut self, shape: Option<Shape>, wanted: Type) -> usize {
        self.parent.push(self.parent.len());
        self.shape.push(shape);
        self.visible.push(wanted);
        self.parent.len() - 1
    }

    /// A value of which only a visible type is known.
    pub fn unknown(&mut self, wanted: &Type) -> usize {
        self.node(None, visible(wanted))
    }

    pub fn pair(&mut self, a: usize, b: usize) -> usize {
        self.node(Some(Shape::Pair(a, b)), Type::Message)
    }

    pub fn encrypted(&mut self, a: usize, b: usize) -> usize {
        self.node(Some(Shape::Encrypted(a, b)), Type::Message)
    }

    /// An atom of this kind that is nowhere else.
    pub fn new_atom(&mut self, kind: usize) -> usize {
        self.atoms += 1;
        let number = self.atoms;
        self.node(Some(Shape::Atom { kind, number }), Type::Message)
    }

    pub fn find(&self, node: usize) -> usize {
        let mut at = node;
        while self.parent[at] != at {
            at = self.parent[at];
        }
        at
    }

    pub fn shape(&self, node: usize) -> Option<Shape> {
        self.shape[self.find(node)]
    }

    /// The value visibly has this type too; false if it can't. The walk goes along the type, as nodes may hold themselves.
    pub fn narrow(&mut self, node: usize, wanted: &Type) -> bool {
        let root = self.find(node);
        let wanted = visible(wanted);
        match self.visible[root].meet(&wanted) {
            Some(both) => self.visible[root] = both,
            None => return false,
        }
        match (self.shape[root], wanted) {
            (None, _) | (_, Type::Message) => true,
            (Some(Shape::Atom { .. }), Type::Name) => true,
            (Some(Shape::Atom { kind, .. }), Type::Channel) => kind == CHANNEL,
            (Some(Shape::Atom { kind, .. }), Type::ShKey) => kind == KEY,
            (Some(Shape::Pair(a, b)), Type::Pair(left, right)) => self.narrow(a, &left) && self.narrow(b, &right),
            (Some(Shape::Encrypted(..)), Type::Cipher(_)) => true,
            _ => false,
        }
    }

    /// The two are the same value; false if they can't be.
    pub fn merge(&mut self, a: usize, b: usize) -> bool {
        let (a, b) = (self.find(a), self.find(b));
        if a == b {
            return true;
        }
        let (first, second) = (self.shape[a], self.shape[b]);
        self.parent[b] = a;
        self.shape[a] = first.or(second);
        let (from_a, from_b) = (self.visible[a].clone(), self.visible[b].clone());
        if !self.narrow(a, &from_a) || !self.narrow(a, &from_b) {
            return false;
        }
        match (first, second) {
            (Some(Shape::Pair(c, d)), Some(Shape::Pair(e, f)))
            | (Some(Shape::Encrypted(c, d)), Some(Shape::Encrypted(e, f))) => self.merge(c, e) && self.merge(d, f),
            (Some(one), Some(other)) => one == other,
            _ => true,
        }
    }

    /// A value that visibly lacks the type, if there is one.
    pub fn lacking(&mut self, rng: &mut Rng, wanted: &Type) -> Option<usize> {
        let way = rng.below(3);
        match wanted {
            Type::Message => None,
            Type::Channel if way > 0 => {
                let kind = rng.pick(&[PLAIN, KEY]);
                Some(self.new_atom(kind))
            }
            Type::ShKey if way > 0 => {
                let kind = rng.pick(&[PLAIN, CHANNEL]);
                Some(self.new_atom(kind))
            }
            Type::Pair(left, right) if way > 0 => {
                let a = self.lacking(rng, left);
                let b = if a.is_none() {
                    Some(self.lacking(rng, right)?)
                } else {
                    None
                };
                let a = a.unwrap_or_else(|| self.unknown(left));
                let b = b.unwrap_or_else(|| self.unknown(right));
                Some(self.pair(a, b))
            }
            Type::Pair(..) | Type::Cipher(_) => Some(self.new_atom(KEY)),
            _ => {
                let (a, b) = (self.new_atom(PLAIN), self.new_atom(KEY));
                Some(if way == 0 {
                    self.pair(a, b)
                } else {
                    self.encrypted(a, b)
                })
            }
        }
    }

    /// Puts the node's value into the table; none if it would hold itself.
    pub fn ground(&mut self, rng: &mut Rng, node: usize, out: &mut Ground) -> Option<usize> {
        let root = self.find(node);
        match out.done.get(&root) {
            Some(Some(index)) => return Some(*index),
            Some(None) => return None,
            None => {}
        }
        out.done.insert(root, None);
        if self.shape[root].is_none() {
            let wanted = self.visible[root].clone();
            let shape = self.some_shape(rng, &wanted);
            self.shape[root] = Some(shape);
        }
        let value = match self.shape[root]? {
            Shape::Atom { kind, number } => Value::Atom { kind, number },
            Shape::Pair(a, b) => Value::Pair(self.ground(rng, a, out)?, self.ground(rng, b, out)?),
            Shape::Encrypted(a, b) => Value::Encrypted(self.ground(rng, a, out)?, self.ground(rng, b, out)?),
        };
        let index = out.place(value);
        out.done.insert(root, Some(index));
        Some(index)
    }

    fn some_shape(&mut self, rng: &mut Rng, wanted: &Type) -> Shape {
        let atom = |solver: &mut Solver, kind| {
            let node = solver.new_atom(kind);
            solver.shape[node].expect("an atom")
        };
        let any = rng.below(3);
        match wanted {
            Type::Pair(left, right) => Shape::Pair(self.unknown(left), self.unknown(right)),
            Type::Message if rng.once_in(4) => Shape::Pair(self.new_atom(any), self.new_atom(KEY)),
            Type::Cipher(_) => Shape::Encrypted(self.new_atom(any), self.new_atom(KEY)),
            Type::Message if rng.once_in(4) => Shape::Encrypted(self.new_atom(any), self.new_atom(KEY)),
            Type::Channel => atom(self, CHANNEL),
            Type::ShKey => atom(self, KEY),
            Type::Message | Type::Name => atom(self, any),
        }
    }
}

/// A value table in the making. No value stands there twice.
#[derive(Clone, Debug, Default)]
pub struct Ground {
    pub values: Vec<Value>,
    index: HashMap<Value, usize>,
    done: HashMap<usize, Option<usize>>,
}

impl Ground {
    pub fn place(&mut self, value: Value) -> usize {
        let next = self.values.len();
        let index = *self.index.entry(value).or_insert(next);
        if index == next {
            self.values.push(value);
        }
        index
    }
}
