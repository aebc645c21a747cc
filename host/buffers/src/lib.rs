//! Tells whether a byte buffer as long as a 6G1 stands between a message and its reply, in the
//! sources of the crates that make replies and of all that they call.

mod bodies;
mod choices;
mod closures;
mod control;
mod crates;
mod cursor;
mod expressions;
mod generics;
mod items;
mod look;
mod methods;
mod numbers;
mod patterns;
mod reader;
mod remark;
mod sources;
mod tokens;
mod types;
mod waiting;

pub use look::{look, Report};
pub use remark::{Finding, Remark};

/// The bytes of the shortest 6G1.
pub const SHORTEST_6G1: u64 = 339;
