//! What `tests/` and `bench/` share: calls as the library takes them, the library itself, plain Rust that does the
//! same, mazes and random numbers.

pub mod answer;
pub mod call;
pub mod function;
#[cfg(feature = "library")]
pub mod library;
pub mod maze;
pub mod memory;
pub mod random;
