//! A role table once it is read: symbols, terms and steps.

#[derive(Clone, Copy, PartialEq, Eq, Debug)]
pub enum Sort {
    Name,
    Variable,
}

/// A term; its parts are indexes of lower terms.
#[derive(Clone, Copy, PartialEq, Eq, Hash, Debug)]
pub enum Term {
    Symbol(usize),
    Pair(usize, usize),
    Encrypted(usize, usize),
}

impl Term {
    /// The two parts of a pair or an encryption.
    pub fn parts(self) -> Option<[usize; 2]> {
        match self {
            Term::Symbol(_) => None,
            Term::Pair(a, b) | Term::Encrypted(a, b) => Some([a, b]),
        }
    }
}

/// A step; what it uses are indexes of terms, what it binds are symbols.
#[derive(Clone, Copy, PartialEq, Eq, Debug)]
pub enum Step {
    Output { channel: usize, message: usize },
    Input { channel: usize, x: usize },
    Restriction { x: usize },
    Match { a: usize, b: usize },
    Split { a: usize, x: usize, y: usize },
    Decrypt { a: usize, key: usize, x: usize },
}

impl Step {
    /// The step's terms, in the order in which they are built.
    pub fn terms(self) -> Vec<usize> {
        match self {
            Step::Output { channel, message } => vec![channel, message],
            Step::Input { channel, .. } => vec![channel],
            Step::Restriction { .. } => vec![],
            Step::Match { a, b } => vec![a, b],
            Step::Split { a, .. } => vec![a],
            Step::Decrypt { a, key, .. } => vec![a, key],
        }
    }

    /// The symbols that the step binds.
    pub fn binds(self) -> Vec<usize> {
        match self {
            Step::Output { .. } | Step::Match { .. } => vec![],
            Step::Input { x, .. } | Step::Restriction { x } | Step::Decrypt { x, .. } => vec![x],
            Step::Split { x, y, .. } => vec![x, y],
        }
    }
}

#[derive(Clone, PartialEq, Eq, Debug)]
pub struct Table {
    pub symbols: Vec<Sort>,
    pub terms: Vec<Term>,
    pub steps: Vec<Step>,
}

impl Table {
    /// For each symbol the first step that binds it, if any does.
    pub fn bound_at(&self) -> Vec<Option<usize>> {
        let mut bound = vec![None; self.symbols.len()];
        for (i, step) in self.steps.iter().enumerate() {
            for x in step.binds() {
                bound[x] = bound[x].or(Some(i));
            }
        }
        bound
    }

    /// The free symbols, by index.
    pub fn free(&self) -> Vec<usize> {
        let bound = self.bound_at();
        (0..self.symbols.len()).filter(|&s| bound[s].is_none()).collect()
    }

    /// Which terms are held, at any depth, by the given ones (themselves included): one pass from the highest term down.
    pub fn held_by(&self, tops: &[usize]) -> Vec<bool> {
        let mut held = vec![false; self.terms.len()];
        for &top in tops {
            held[top] = true;
        }
        for i in (0..self.terms.len()).rev() {
            if held[i] {
                for part in self.terms[i].parts().into_iter().flatten() {
                    held[part] = true;
                }
            }
        }
        held
    }

    /// The index of a term, if it is in the table.
    pub fn find(&self, term: Term) -> Option<usize> {
        self.terms.iter().position(|&t| t == term)
    }
}
