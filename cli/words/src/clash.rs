//! Number 10 in words: what is wanted as two things at once, and by which steps.
//!
//! The steps are gone through from the last one to the first, and every demand lowers a symbol's type by a meet, as the proved code
//! does it; here each part of a type also remembers why it is there. The steps are first cut down to a few that have no typing
//! together while any fewer of them have one. The words are no promise, but what they say is true: the tests hold every clash
//! against the second implementation.

use std::rc::Rc;

use crate::codes::{find, lies_below, Holds, Want, SORTS, STEP_FIELDS, TERM_FIELDS, TYPES};
use crate::table::{Step, Table};
use crate::writing::filled;

/// Why a part of a type is there.
#[derive(Debug)]
pub enum Why {
    /// The symbol's sort.
    Sort,
    /// A term's own shape.
    Shape,
    /// A step wants it, as its row says.
    Step { step: usize, want: &'static Want },
    /// A step uses a term, at any depth, that wants it of its part.
    Inside {
        step: usize,
        term: usize,
        want: &'static Want,
    },
    /// It is wanted of a symbol that this step takes out of a term.
    Through { step: usize, symbol: usize, rest: Rc<Why> },
}

impl Why {
    /// The steps that want it together.
    pub fn steps(&self) -> Vec<usize> {
        match self {
            Why::Sort | Why::Shape => Vec::new(),
            Why::Step { step, .. } | Why::Inside { step, .. } => vec![*step],
            Why::Through { step, rest, .. } => {
                let mut steps = rest.steps();
                steps.push(*step);
                steps
            }
        }
    }
}

#[derive(Clone)]
struct Type {
    code: u8,
    why: Rc<Why>,
    parts: Vec<Type>,
}

impl Type {
    /// The same type, wanted through a step that binds a symbol of this type.
    fn through(&self, step: usize, symbol: usize) -> Type {
        Type {
            code: self.code,
            why: Rc::new(Why::Through {
                step,
                symbol,
                rest: Rc::clone(&self.why),
            }),
            parts: self.parts.iter().map(|part| part.through(step, symbol)).collect(),
        }
    }
}

/// What is wanted as two things.
#[derive(Debug)]
pub enum Thing {
    Symbol(usize),
    Term(usize),
}

/// A part of a thing, by the parts' words from the outside in, that is wanted as two types that nothing lies below.
#[derive(Debug)]
pub struct Clash {
    pub thing: Thing,
    pub path: Vec<&'static str>,
    pub sides: [Side; 2],
}

/// A type's code, and why it is wanted.
#[derive(Debug)]
pub struct Side {
    pub code: u8,
    pub why: Rc<Why>,
}

/// The clash of a table with none of the faults 1 to 9 and number 10 at this step; none if there is no such clash.
pub fn clash(table: &Table, place: usize) -> Option<Clash> {
    let mut steps: Vec<usize> = (place..table.steps.len()).collect();
    infer(table, &steps)?;
    // The latest steps are tried first, so that those near the place stay.
    for step in (place..table.steps.len()).rev() {
        let fewer: Vec<usize> = steps.iter().copied().filter(|&other| other != step).collect();
        if infer(table, &fewer).is_some() {
            steps = fewer;
        }
    }
    infer(table, &steps)
}

/// The clash that the inference meets on these steps, if it meets one.
fn infer(table: &Table, steps: &[usize]) -> Option<Clash> {
    let widest = |&sort: &u8| Type {
        code: find(SORTS, sort, table.version).map_or(0, |sort| sort.widest),
        why: Rc::new(Why::Sort),
        parts: Vec::new(),
    };
    let mut types: Vec<Type> = table.sorts.iter().map(widest).collect();
    let mut from_last = steps.iter().rev();
    from_last.find_map(|&i| lower_for_step(table, i, table.steps[i], &mut types).err())
}

/// Lowers the types just as far as a step asks.
fn lower_for_step(table: &Table, index: usize, step: Step, types: &mut [Type]) -> Result<(), Clash> {
    let held = table.held_by(step.terms());
    for (term, (row, fields)) in table.terms.iter().enumerate().filter(|&(term, _)| held[term]) {
        for want in row.wants {
            let wanted = Type {
                code: want.wanted,
                why: Rc::new(Why::Inside {
                    step: index,
                    term,
                    want,
                }),
                parts: Vec::new(),
            };
            lower(table, fields[want.field], &wanted, types)?;
        }
    }
    for want in step.row.wants {
        let parts = want.over.iter().map(|&field| {
            let symbol = step.fields[field];
            types[symbol].through(index, symbol)
        });
        let wanted = Type {
            code: want.wanted,
            why: Rc::new(Why::Step { step: index, want }),
            parts: parts.collect(),
        };
        lower(table, step.fields[want.field], &wanted, types)?;
    }
    Ok(())
}

/// The term has the wanted type's shape. The walk goes along the type.
fn lower(table: &Table, term: usize, wanted: &Type, types: &mut [Type]) -> Result<(), Clash> {
    let (row, fields) = table.terms[term];
    let Some((code, parts)) = row.gives else {
        let symbol = fields[0];
        let mut path = Vec::new();
        return match meet(&types[symbol], wanted, &mut path) {
            Ok(lower) => {
                types[symbol] = lower;
                Ok(())
            }
            Err(sides) => Err(Clash {
                thing: Thing::Symbol(symbol),
                path,
                sides,
            }),
        };
    };
    if code == wanted.code {
        let mut parts = parts.iter().zip(&wanted.parts);
        return parts.try_for_each(|(&field, part)| lower(table, fields[field], part, types));
    }
    if lies_below(code, wanted.code) {
        return Ok(());
    }
    let shape = Side {
        code,
        why: Rc::new(Why::Shape),
    };
    Err(Clash {
        thing: Thing::Term(term),
        path: Vec::new(),
        sides: [shape, side(wanted)],
    })
}

fn side(wanted: &Type) -> Side {
    Side {
        code: wanted.code,
        why: Rc::clone(&wanted.why),
    }
}

/// The widest type below both; or the two sides that have none, and the path to them.
fn meet(a: &Type, b: &Type, path: &mut Vec<&'static str>) -> Result<Type, [Side; 2]> {
    if a.code == b.code {
        let words = find(TYPES, a.code, u16::MAX).map_or(&[][..], |row| row.parts);
        let mut parts = Vec::new();
        for ((a, b), word) in a.parts.iter().zip(&b.parts).zip(words) {
            path.push(word);
            parts.push(meet(a, b, path)?);
            path.pop();
        }
        return Ok(Type {
            code: a.code,
            why: Rc::clone(&a.why),
            parts,
        });
    }
    match (lies_below(a.code, b.code), lies_below(b.code, a.code)) {
        (true, _) => Ok(a.clone()),
        (_, true) => Ok(b.clone()),
        _ => Err([side(a), side(b)]),
    }
}

/// The clash as lines: what is wanted as what, then each demand with its step.
pub fn lines(table: &Table, clash: &Clash) -> Vec<String> {
    let thing = match clash.thing {
        Thing::Symbol(symbol) => format!("s{symbol}"),
        Thing::Term(term) => table.term(term),
    };
    let part: String = clash.path.iter().rev().map(|word| format!("the {word} of ")).collect();
    let word = |side: &Side| find(TYPES, side.code, u16::MAX).map_or("?", |row| row.word);
    let [a, b] = &clash.sides;
    let mut demands = vec![a, b];
    demands.sort_by_key(|side| side.why.steps().first().copied());
    let mut lines = vec![match &*a.why {
        Why::Sort => format!("{thing} is a name, and is wanted as {}", word(b)),
        Why::Shape => format!("{thing} is a {}, and is wanted as {}", word(a), word(b)),
        _ => format!(
            "{part}{thing} is wanted as {} and as {}, and nothing is both",
            word(demands[0]),
            word(demands[1])
        ),
    }];
    for side in demands {
        let why = why_lines(table, &side.why);
        lines.extend(why.into_iter().enumerate().map(|(i, line)| match i {
            0 => format!("as {}: {line}", word(side)),
            _ => line,
        }));
    }
    lines
}

/// Why something is wanted, the step that first wants it in the first line.
fn why_lines(table: &Table, why: &Why) -> Vec<String> {
    let text = |step: usize| table.step_text(table.steps[step]);
    match why {
        Why::Sort | Why::Shape => Vec::new(),
        Why::Step { step, want } => {
            let here = table.steps[*step];
            let words = filled(want.words, &STEP_FIELDS, |field| table.field(here, field));
            vec![format!("step {step} {words}: {}", text(*step))]
        }
        Why::Inside { step, term, want } => {
            let (row, fields) = table.terms[*term];
            let words = filled(want.words, &TERM_FIELDS, |field| match row.fields[field] {
                Holds::Term => table.term(fields[field]),
                _ => String::new(),
            });
            vec![format!("step {step} {words} in {}: {}", table.term(*term), text(*step))]
        }
        Why::Through { step, symbol, rest } => {
            let mut lines = why_lines(table, rest);
            lines.push(format!("s{symbol} comes from step {step}: {}", text(*step)));
            lines
        }
    }
}
