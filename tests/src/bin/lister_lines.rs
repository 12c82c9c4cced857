//! Random inputs given to the program `lister`, each line held to the
//! reference's: `lister_lines PROGRAM [COUNT [SEED]]`.

use std::process::ExitCode;

use compare::generate::cases::special;
use compare::generate::{Cases, Random, CASE_SEEDS};
use compare::program;
use compare::reference::{lister, read};
use compare::tally::Tally;

/// The lines that one program printed, and the reference's answers.
struct Lines {
    program: String,
    tally: Tally,
}

impl Lines {
    fn compare(&mut self, input: &[u8]) -> Result<(), String> {
        let line = program::output(&self.program, input)
            .map_err(|error| format!("{}: {error}", self.program))?;
        let due = lister::line(input);
        let (name, body) = lister::split(input);
        self.tally.add(&read(None, name, body));
        if line == due {
            return Ok(());
        }
        Err(format!(
            "lister {:?}, reference {:?}: {:?}",
            String::from_utf8_lossy(&line),
            String::from_utf8_lossy(&due),
            &input[..input.len().min(200)]
        ))
    }

    /// Each of so many files as it is, and again without a body, cut anywhere,
    /// or with another 0A before or after its own.
    fn compare_all(&mut self, count: u64, seed: u64) -> Result<(), String> {
        let mut random = Random::new(seed);
        for case in Cases::new(seed).take(count as usize) {
            let mut input = case.input();
            self.compare(&input)?;
            let length = input.len() as u64;
            match random.below(3) {
                0 => input = case.name,
                1 => input.truncate(random.below(length) as usize),
                _ => input.insert(random.below(70).min(length) as usize, b'\n'),
            }
            self.compare(&input)?;
        }
        for case in special() {
            self.compare(&case.input())?;
        }
        for input in [&b""[..], b"\n", b"\n\n", b"\r\n", b"203", b"203\n"] {
            self.compare(input)?;
        }
        Ok(())
    }
}

fn main() -> ExitCode {
    let mut words = std::env::args().skip(1);
    let program = words.next();
    let mut numbers = words.map(|word| word.parse::<u64>());
    let (Some(program), Ok(count), Ok(seed)) = (
        program,
        numbers.next().unwrap_or(Ok(1_000)),
        numbers.next().unwrap_or(Ok(CASE_SEEDS[0] + 1)),
    ) else {
        eprintln!("usage: lister_lines PROGRAM [COUNT [SEED]]");
        return ExitCode::FAILURE;
    };
    println!("seed {seed}, {count} files");
    let tally = Tally::new("lister");
    let mut lines = Lines { program, tally };
    if let Err(difference) = lines.compare_all(count, seed) {
        println!("{difference}");
        return ExitCode::FAILURE;
    }
    lines.tally.settle(&[7, 8, 9, 10, 11, 12, 13]);
    ExitCode::SUCCESS
}
