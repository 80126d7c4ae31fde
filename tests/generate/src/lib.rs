//! Generated tables, lists, traces and damage, all of them decided by a 64-bit seed.
//!
//! `kind` names each kind of thing; `tables`, `lists`, `shelves` and `traces` make one thing of a named kind. The `raw` forms are files as
//! entries, so that one entry can be changed; `second` is used only where a faithful list or a run is needed.

pub mod builder;
pub mod damage;
pub mod faithful;
pub mod kind;
pub mod list_faults;
pub mod lists;
pub mod plan;
pub mod raw;
pub mod rng;
pub mod shelves;
pub mod solver;
pub mod table_faults;
pub mod tables;
pub mod trace_faults;
pub mod traces;
pub mod unfaithful;
pub mod untyped;

pub use kind::{Change, Damage, ListKind, ShelfKind, Sits, TableKind, TraceKind};
pub use rng::Rng;
