//! The second implementation: all of document 01, written from that document alone, plain and slow where that is clearer.
//!
//! Bytes are read by `read_table`, `read_list` and `read_trace`; `types` and `typing` give the widest typing;
//! `translate` compiles; `judge` judges; `run` runs a list and `process` the process of Table 2; `demand3` compares the two.
//! `service` has the services as the static library offers them.
//!
//! Terms and values are graphs, not trees: 128 terms `1 t t` unfold to 2^127 nodes. Every walk here is either one pass over the
//! entries, or goes along a type.

pub mod bytes;
pub mod demand3;
pub mod judge;
pub mod list;
pub mod process;
pub mod read_list;
pub mod read_table;
pub mod read_trace;
pub mod refusal;
pub mod run;
pub mod service;
pub mod table;
pub mod trace;
pub mod translate;
pub mod types;
pub mod typing;

pub use refusal::{Answer, Refusal};
