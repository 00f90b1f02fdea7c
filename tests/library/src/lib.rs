//! The proved library as a Rust program calls it, and its comparison with the
//! second program.
//!
//! - [`archive`]: the calls of the static library;
//! - [`export`]: the blocks of each, and its answers by the second program;
//! - [`call`]: what is lent to a call, and what it leaves;
//! - [`reached`]: what the calls have to reach.

pub mod archive;
pub mod call;
pub mod export;
pub mod reached;
