//! Counts of the answers that a test met, printed as a table.

use std::collections::BTreeMap;

/// How often each cause number came; 0 stands for accepted.
pub struct Tally {
    title: String,
    counts: BTreeMap<u8, u64>,
}

impl Tally {
    pub fn new(title: &str) -> Tally {
        Tally {
            title: title.to_string(),
            counts: BTreeMap::new(),
        }
    }

    /// Counts one answer.
    pub fn add<T>(&mut self, answer: &Result<T, u8>) {
        let cause = match answer {
            Ok(_) => 0,
            Err(cause) => *cause,
        };
        *self.counts.entry(cause).or_insert(0) += 1;
    }

    pub fn count(&self, cause: u8) -> u64 {
        self.counts.get(&cause).copied().unwrap_or(0)
    }

    pub fn total(&self) -> u64 {
        self.counts.values().sum()
    }

    /// Prints the table and demands that acceptance and each of `causes`
    /// came, and no cause besides them.
    pub fn settle(&self, causes: &[u8]) {
        println!("{}: {} answers", self.title, self.total());
        for (cause, count) in &self.counts {
            match cause {
                0 => println!("  accepted   {count:>9}"),
                _ => println!("  cause {cause:>2}   {count:>9}"),
            }
        }
        assert!(self.count(0) > 0, "{}: nothing was accepted", self.title);
        for cause in causes {
            let reached = self.count(*cause) > 0;
            assert!(reached, "{}: cause {cause} was not reached", self.title);
        }
        for cause in self.counts.keys() {
            let known = *cause == 0 || causes.contains(cause);
            assert!(known, "{}: unexpected cause {cause}", self.title);
        }
    }
}

/// How often each branch of a rule was taken.
#[derive(Default)]
pub struct Branches {
    counts: BTreeMap<&'static str, u64>,
}

impl Branches {
    pub fn add(&mut self, branch: &'static str) {
        *self.counts.entry(branch).or_insert(0) += 1;
    }

    /// Prints the table and demands that each of `branches` came, and none
    /// besides them.
    pub fn settle(&self, title: &str, branches: &[&str]) {
        println!("{title}:");
        for branch in branches {
            let count = self.counts.get(branch).copied().unwrap_or(0);
            println!("  {count:>9}  {branch}");
        }
        for branch in branches {
            let reached = self.counts.contains_key(branch);
            assert!(reached, "{title}: {branch} was not reached");
        }
        for branch in self.counts.keys() {
            let known = branches.contains(branch);
            assert!(known, "{title}: unexpected branch {branch}");
        }
    }
}
