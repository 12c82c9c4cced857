//! The library under test, held against a second implementation written from
//! documents 01 and 02 alone.
//!
//! `reference` is the plain implementation, `generate` makes the inputs,
//! `lent` the buffers, `tally` counts what they reach. The library under test
//! (feature `linked`) is `firmware`, which `lists` runs beside the plain
//! machine. `replay` is the plain machine behind the text of the program of
//! that name, `program` runs one. For the benchmark alone `fast` is a reader
//! and `fixed` a unit written for speed, `both` runs it beside the library,
//! and `timing` times them.

#[cfg(feature = "linked")]
pub mod both;
pub mod call;
pub mod fast;
pub mod firmware;
pub mod fixed;
pub mod generate;
pub mod lent;
#[cfg(feature = "linked")]
pub mod lists;
pub mod program;
pub mod reference;
pub mod replay;
pub mod tally;
pub mod timing;
