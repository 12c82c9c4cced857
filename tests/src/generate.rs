//! Deterministic inputs for every comparison: names and bodies, writer
//! fields, error files, requests, installs and dates, whole responses, valid
//! and damaged, and lists of calls.
//!
//! Everything hangs on the seeds below and on the generator in `random`; the
//! same seed always gives the same inputs.

pub mod almanac;
pub mod calls;
pub mod cases;
pub mod damage;
pub mod damage_form;
pub mod damage_rules;
pub mod draft;
pub mod fields;
pub mod files;
pub mod frame;
pub mod instants;
pub mod lines;
pub mod outputs;
pub mod random;
pub mod responses;
pub mod shapes;
pub mod spoil;
pub mod spoil_store;

pub use cases::{Case, Cases};
pub use random::Random;

/// Seeds of the names and bodies. Each test prints the seeds that it uses.
pub const CASE_SEEDS: [u64; 4] = [20_260_327, 1_804_011_700, 0x5EED, 20_991_231];
/// Names and bodies made from each seed: 204,000 in all.
pub const CASES_PER_SEED: usize = 51_000;
/// Seed of the writer's fields.
pub const FIELD_SEED: u64 = 19_681;
/// Seed of the error files.
pub const ERROR_SEED: u64 = 390;
/// Seed of the requests.
pub const REQUEST_SEED: u64 = 84;
/// Seed of the installs.
pub const INSTALL_SEED: u64 = 545;
/// Seed of the dates and slots.
pub const DATE_SEED: u64 = 36_525;
/// Seed of the whole responses.
pub const RESPONSE_SEED: u64 = 19_871;
/// Seed of the first list of calls; the next ones follow it.
pub const LIST_SEED: u64 = 23_808;
/// Lists of calls in the gate.
pub const LISTS_IN_THE_GATE: u64 = 6_000;
