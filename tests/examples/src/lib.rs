//! Real protocols as role tables, lists and traces. The files in `examples/` at the top of the tree are made here, and a test
//! keeps them in step.
//!
//! `table` and `trace` write the files step by step; `world` has the values that three of the protocols share; `protocols` has one
//! module a protocol; `role` joins a role's files with the answers that its protocol's README.md states.

pub mod protocols;
pub mod role;
pub mod table;
pub mod trace;
pub mod world;

pub use protocols::all;
pub use role::{Protocol, Role};
