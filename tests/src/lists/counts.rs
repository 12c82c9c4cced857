//! What the lists reached: answers by call, branches of the rules, kinds of
//! spoilt units and stores.

use std::collections::BTreeMap;

use super::branches::{BRANCHES, WINDOWS};
use crate::call::Answer;
use crate::generate::shapes::SHAPES;
use crate::generate::spoil::all_spoils;
use crate::tally::{Branches, Tally};

/// The calls with the causes that each may be refused with, where unit and
/// store are sound.
const CAUSES: [(&str, &[u8]); 10] = [
    ("tick", &[3, 6]),
    ("clock lost", &[]),
    ("file taken", &[3, 5, 7, 8, 9, 10, 11, 12, 13, 14]),
    ("response taken", &[3, 5, 17, 7, 8, 9, 10, 11, 12, 13, 14]),
    ("update failed", &[5, 6]),
    ("fixed failed", &[5, 6]),
    ("due", &[5]),
    ("ceiling", &[3, 5, 6]),
    ("command", &[]),
    ("free blocks", &[]),
];

#[derive(Default)]
pub struct Counts {
    pub lists: u64,
    /// Ticks made again by one-second ticks, and the longest of them.
    pub single_ticks: u64,
    pub longest_single: u64,
    /// Well-formed responses, each held to its file taken in its place.
    pub responses: u64,
    pub shapes: Branches,
    pub branches: Branches,
    pub windows: Branches,
    pub spoils: Branches,
    calls: BTreeMap<&'static str, Tally>,
    spoilt_calls: BTreeMap<&'static str, Tally>,
    pub installs: BTreeMap<u8, u64>,
}

/// The answer as the tally has it.
fn outcome(answer: Answer) -> Result<(), u8> {
    match answer.cause() {
        0 => Ok(()),
        cause => Err(cause),
    }
}

impl Counts {
    /// Counts the answer of a call whose unit and store nobody else wrote.
    pub fn call(&mut self, title: &'static str, answer: Answer) {
        let tally = self.calls.entry(title);
        tally
            .or_insert_with(|| Tally::new(title))
            .add(&outcome(answer));
    }

    /// Counts the answer of a call with something spoilt.
    pub fn spoilt_call(&mut self, title: &'static str, answer: Answer) {
        let tally = self.spoilt_calls.entry(title);
        tally
            .or_insert_with(|| Tally::new(&format!("{title}, spoilt")))
            .add(&outcome(answer));
    }

    /// All calls, those with something spoilt among them.
    pub fn total(&self) -> u64 {
        let tallies = self.calls.values().chain(self.spoilt_calls.values());
        tallies.map(Tally::total).sum()
    }

    /// Prints everything, and demands that each cause and each branch came.
    pub fn settle(&self) {
        println!("{} lists, {} calls", self.lists, self.total());
        for (title, causes) in CAUSES {
            self.calls[title].settle(causes);
        }
        for (title, causes) in CAUSES {
            // Where the store is lent, its length and its bytes count.
            let mut causes = causes.to_vec();
            causes.push(4);
            self.spoilt_calls[title].settle(&causes);
        }
        let shapes: Vec<&str> = SHAPES.iter().map(|shape| shape.words).collect();
        self.shapes.settle("lists by shape", &shapes);
        self.branches.settle("branches", &BRANCHES);
        self.windows.settle("due in the window", &WINDOWS);
        let spoils: Vec<&str> = all_spoils().map(|spoil| spoil.words).collect();
        self.spoils.settle("spoilt", &spoils);
        println!("installs: {:?}", self.installs);
        for cause in [0, 1, 2] {
            let reached = self.installs.contains_key(&cause);
            assert!(reached, "installing: {cause} was not reached");
        }
        println!(
            "{} ticks again by single seconds, the longest of {}",
            self.single_ticks, self.longest_single
        );
        assert!(self.single_ticks > 0);
        println!("{} responses as their files taken", self.responses);
        assert!(self.responses > 0);
    }
}
