//! The widest typing of a table, or number 10: Figure 2 with subsumption, and every name at or below Name.
//!
//! A symbol is used only after the step that binds it, so going from the last step to the first, a bound symbol's type is final
//! when its step is reached. A term has a type if every encryption inside has a key of type ShKey and the term has the type's shape;
//! the shape's walk goes along the type, so shared terms cost nothing.

use crate::refusal::{Refusal, TABLE};
use crate::table::{Sort, Step, Table, Term};
use crate::types::Type;

/// The widest type of each symbol; or 10, and the highest step from which the rest of the steps has no typing.
pub fn widest_typing(table: &Table) -> Result<Vec<Type>, Refusal> {
    let mut types: Vec<Type> = table.symbols.iter().map(widest_of_sort).collect();
    for (i, step) in table.steps.iter().enumerate().rev() {
        if lower_for_step(table, *step, &mut types).is_none() {
            return Refusal::give(10, TABLE, i);
        }
    }
    Ok(types)
}

fn widest_of_sort(sort: &Sort) -> Type {
    match sort {
        Sort::Name => Type::Name,
        Sort::Variable => Type::Message,
    }
}

/// Lowers the types just as far as the step asks; none if no types are low enough.
fn lower_for_step(table: &Table, step: Step, types: &mut [Type]) -> Option<()> {
    keys_inside(table, &step.terms(), types)?;
    match step {
        // P-Out: the message may have any type.
        Step::Output { channel, .. } => lower(table, channel, &Type::Channel, types),
        // P-In: the bound symbol may have any type.
        Step::Input { channel, .. } => lower(table, channel, &Type::Channel, types),
        // P-Restr: names start at Name.
        Step::Restriction { .. } => Some(()),
        // P-Match: the types need not be the same.
        Step::Match { .. } => Some(()),
        // P-PSplit.
        Step::Split { a, x, y } => {
            let pair = Type::pair(types[x].clone(), types[y].clone());
            lower(table, a, &pair, types)
        }
        // P-ShKD.
        Step::Decrypt { a, key, x } => {
            let cipher = Type::cipher(types[x].clone());
            lower(table, a, &cipher, types)?;
            lower(table, key, &Type::ShKey, types)
        }
    }
}

/// T-ShKC: the key of every encryption inside the given terms has type ShKey.
fn keys_inside(table: &Table, terms: &[usize], types: &mut [Type]) -> Option<()> {
    let held = table.held_by(terms);
    for (i, term) in table.terms.iter().enumerate() {
        if let Term::Encrypted(_, key) = *term {
            if held[i] {
                lower(table, key, &Type::ShKey, types)?;
            }
        }
    }
    Some(())
}

/// T-Var, T-Pair and the inside of T-ShKC: the term has the wanted type's shape.
fn lower(table: &Table, term: usize, wanted: &Type, types: &mut [Type]) -> Option<()> {
    match (table.terms[term], wanted) {
        (_, Type::Message) => Some(()),
        (Term::Symbol(s), _) => {
            types[s] = types[s].meet(wanted)?;
            Some(())
        }
        (Term::Pair(a, b), Type::Pair(left, right)) => {
            lower(table, a, left, types)?;
            lower(table, b, right, types)
        }
        (Term::Encrypted(a, _), Type::Cipher(inside)) => lower(table, a, inside, types),
        _ => None,
    }
}
