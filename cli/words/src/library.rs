//! What this package asks of the proved library. Nothing else here calls it.

pub use mirvashol::{types, Refusal};

/// The refusal 1 to 5 of a list by itself, for so many free symbols.
pub fn list_refusal(list: &[u8], free: usize) -> Option<Refusal> {
    mirvashol::check_list(list, free).err()
}

/// The refusal 1 to 6 of a trace by itself.
pub fn trace_refusal(trace: &[u8]) -> Option<Refusal> {
    mirvashol::check_trace(trace).err()
}
