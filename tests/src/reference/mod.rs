//! Document 01's rules for names, bodies and the outputs beside the unit, its
//! plain machine, and document 02's whole responses, written down as plainly
//! as possible. Clarity before speed.

pub mod body;
pub mod calendar;
pub mod error_file;
pub mod lister;
pub mod machine;
pub mod name;
pub mod plant;
pub mod ramp;
pub mod request;
pub mod requests;
pub mod response;
pub mod schedule;
pub mod soundness;
pub mod writer;

pub use body::read;
pub use machine::Machine;
pub use name::Segment;
pub use writer::{write, write_into, Fields};
