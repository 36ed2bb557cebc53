//! The rules of exact sums of products, worked out with plain exact integers.
//!
//! This is a second implementation, written from the rules in docs/ alone. It
//! is slow and simple, and makes the expected outputs that the program is held to.

pub mod bigint;
pub mod factors;
pub mod generate;
pub mod kinds;
pub mod line;
pub mod play;
pub mod queues;
pub mod refusal;
pub mod rounding;
pub mod run;
pub mod sheet;
pub mod vector;
