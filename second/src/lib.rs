//! The second program: document 01, with requests 1, 4 and 6 of document 02, read literally, day by day and value by value.
//!
//! "Further plans, valid and damaged, are run by a program and compared with an
//! independent second program that lists allowed plans and applies the rules day
//! by day." It shares nothing with the engine, and is slow where being literal
//! makes it slow.
//!
//! `plan` is what a plan holds, `refusal` and `entry` what is refused, `steps`,
//! `rules` and `left` how ranges are narrowed, `bound` how many passes that takes at
//! most, `allowed` the listing, `file` and `program` the bytes read and the lines
//! printed. `fault` plants an error, `make` makes plans to compare on.

pub mod allowed;
pub mod bound;
pub mod entry;
pub mod fault;
pub mod file;
mod left;
pub mod make;
pub mod plan;
pub mod program;
pub mod random;
pub mod refusal;
mod rules;
pub mod steps;
pub mod stream;
pub mod words;

pub use fault::Fault;
pub use plan::{Band, Kind, Plan, Range, Resource, Sense, Set, Task};
pub use refusal::Refusal;
