//! Random lists of calls as text, given to the program `replay`, its answers
//! held to those of the plain machine: `replay_lists PROGRAM [COUNT [SEED]]`.

use std::collections::BTreeMap;
use std::process::ExitCode;

use compare::generate::calls::{Calls, Installing};
use compare::generate::lines::{call_line, install_line, request_line, NO_CALLS};
use compare::generate::{outputs, Random, LIST_SEED};
use compare::program;
use compare::reference::machine::STORE_LENGTH;
use compare::reference::Machine;
use compare::replay::{Replay, LINE_MAX};

/// What a file taken can be answered with, and last what only a response can.
static TAKING: [&str; 13] = [
    "accepted",
    "refused 3",
    "refused 4",
    "refused 5",
    "refused 7",
    "refused 8",
    "refused 9",
    "refused 10",
    "refused 11",
    "refused 12",
    "refused 13",
    "refused 14",
    "refused 17",
];

/// Every word with every answer that it can have: what must come, and nothing
/// besides. What any line may be answered with stands under no word.
static ANSWERS: &[(&str, &[&str])] = &[
    ("install", &["accepted", "refused 1", "refused 2"]),
    ("store", &["accepted"]),
    ("byte", &["accepted"]),
    ("tick", &["accepted", "refused 3", "refused 4", "refused 6"]),
    ("lost", &["accepted"]),
    ("take", TAKING.split_at(12).0),
    ("response", &TAKING),
    ("failure update", &["accepted", "refused 5", "refused 6"]),
    ("failure fixed", &["accepted", "refused 5", "refused 6"]),
    (
        "ceiling",
        &[
            "rate",
            "none",
            "refused 3",
            "refused 4",
            "refused 5",
            "refused 6",
        ],
    ),
    ("due", &["update", "fixed", "nothing", "refused 5"]),
    ("command", &["a number"]),
    ("free", &["a number"]),
    ("request", &["84 bytes", "refused 7"]),
    ("state", &["clock"]),
    ("block", &["1488 bytes", "none"]),
    ("any line", &["unknown", "too long", "no unit", "no answer"]),
];

/// An answer without its values.
fn kind(answer: &str) -> &str {
    match answer.split(' ').next() {
        Some(first) if first.parse::<u32>().is_ok() && answer.len() < 10 => "a number",
        Some("refused" | "no" | "too") => answer,
        Some("clock") => "clock",
        Some(_) if answer.len() == 84 => "84 bytes",
        Some(_) if answer.len() == 2 * 1_488 => "1488 bytes",
        Some(first) => first,
        None => answer,
    }
}

/// The word of a line with this answer.
fn word(line: &[u8], answer: &str) -> &'static str {
    let titles = ANSWERS.iter().map(|(word, _)| *word);
    let mut named = titles.filter(|title| line.starts_with(title.as_bytes()));
    match answer {
        "unknown" | "too long" | "no unit" | "no answer" => "any line",
        _ => named.next().unwrap_or("any line"),
    }
}

/// Lines that go in, and what the plain machine answers; how often each word
/// had each kind of answer.
#[derive(Default)]
struct Script {
    replay: Replay,
    input: Vec<u8>,
    expected: Vec<String>,
    counts: BTreeMap<(&'static str, String), u64>,
    /// Lines that put the store right again.
    mending: Vec<String>,
}

impl Script {
    fn add(&mut self, line: &[u8]) {
        let answer = self.replay.answer(line);
        let told = answer.as_deref().unwrap_or("no answer");
        let count = self
            .counts
            .entry((word(line, told), kind(told).to_string()));
        *count.or_insert(0) += 1;
        self.input.extend_from_slice(line);
        self.input.push(b'\n');
        self.expected.extend(answer);
    }

    fn machine(&self) -> &Machine {
        self.replay
            .machine()
            .expect("a list begins with installing")
    }

    /// Before the first unit is installed nothing is answered but `no unit`.
    fn before(&mut self) {
        for line in ["due", "tick 5", "state", "block 3", "failure fixed 0"] {
            self.add(line.as_bytes());
        }
    }

    fn install(&mut self, random: &mut Random) {
        let Installing {
            id, mac, settings, ..
        } = Installing::some(random);
        self.add(&install_line(&id, &mac, settings, random));
    }

    /// Some bytes, or all, changed behind the unit's back; 255 is lawful in
    /// every place.
    fn change_store(&mut self, random: &mut Random) {
        if random.once_in(4) {
            let length = random.pick(&[STORE_LENGTH, STORE_LENGTH - 1, 0, 32_768]);
            let byte = random.pick(&[255, 0, 50, 171]);
            self.add(format!("store {length} {byte}").as_bytes());
            self.mending = vec![format!("store {STORE_LENGTH} 255")];
            return;
        }
        for _ in 0..random.between(1, 16) {
            let place = 1_488 * random.below(16) as usize + random.place(1_488);
            let byte = random.pick(&[0, 50, 100, 101, 200, 254, 255]);
            self.add(format!("byte {place} {byte}").as_bytes());
            self.mending.push(format!("byte {place} 255"));
        }
    }

    /// The block of a month from the floor on, or of a number that is none.
    fn block(&mut self, random: &mut Random) {
        let floor = self.machine().schedule.floor;
        let month = match random.once_in(8) {
            true => random.pick(&[1_200, 65_536 + u64::from(floor), u64::MAX]),
            false => u64::from(floor) + random.below(16),
        };
        self.add(format!("block {month}").as_bytes());
    }

    /// Something between the calls.
    fn between(&mut self, random: &mut Random) {
        if random.once_in(6) {
            for line in std::mem::take(&mut self.mending) {
                self.add(line.as_bytes());
            }
        }
        match random.below(80) {
            0..20 => self.add(b"state"),
            20..28 => {
                let (_, _, segment, _, _) = outputs::request(random);
                self.add(&request_line(&segment, random));
            }
            28 | 29 => self.add(random.pick(&NO_CALLS)),
            30 | 31 => self.add(random.pick(&[b"", b"#", b"# due"])),
            32 | 33 => {
                let made = outputs::install(random);
                self.add(&install_line(&made.id, &made.mac, made.settings, random));
            }
            34 => self.change_store(random),
            35..38 => self.block(random),
            38 if random.once_in(20) => self.add(&vec![random.pick(b"# a"); LINE_MAX + 1]),
            _ => {}
        }
    }

    /// A list: a unit installed, a store of one byte, calls with other lines
    /// between them, and every month's block.
    fn list(&mut self, random: &mut Random) {
        self.install(random);
        let length = match random.once_in(10) {
            true => random.pick(&[0, 1, STORE_LENGTH - 1, STORE_LENGTH + 1, 32_768]),
            false => STORE_LENGTH,
        };
        self.add(format!("store {length} {}", random.byte()).as_bytes());
        let mut calls = Calls::some(random);
        for _ in 0..random.between(20, 120) {
            let call = calls.next(self.machine(), random);
            self.add(&call_line(&call, random));
            self.between(random);
        }
        let held = self.machine().schedule.held();
        for month in held.into_iter().chain([0, 1_199, 1_200]) {
            self.add(format!("block {month}").as_bytes());
        }
    }

    /// Prints the counts; what is missing, or came and is not known.
    fn coverage(&self) -> Vec<String> {
        let mut wrong = Vec::new();
        for ((word, answer), count) in &self.counts {
            println!("  {count:>7}  {word}: {answer}");
            let known = ANSWERS
                .iter()
                .any(|(own, answers)| own == word && answers.contains(&answer.as_str()));
            if !known {
                wrong.push(format!("{word}: {answer} came"));
            }
        }
        for (word, answers) in ANSWERS {
            for answer in *answers {
                if !self.counts.contains_key(&(*word, answer.to_string())) {
                    wrong.push(format!("{word}: {answer} never came"));
                }
            }
        }
        wrong
    }
}

/// The first line that differs, told.
fn difference(script: &Script, output: &[u8]) -> Option<String> {
    let output = String::from_utf8_lossy(output);
    let lines: Vec<&str> = output.lines().collect();
    for (index, expected) in script.expected.iter().enumerate() {
        let line = lines.get(index).copied().unwrap_or("nothing");
        if line != expected {
            let place = index + 1;
            return Some(format!(
                "answer {place}: replay {line}, reference {expected}"
            ));
        }
    }
    (lines.len() != script.expected.len()).then(|| format!("{} answers", lines.len()))
}

fn main() -> ExitCode {
    let mut words = std::env::args().skip(1);
    let program = words.next();
    let mut numbers = words.map(|word| word.parse::<u64>());
    let (Some(program), Ok(count), Ok(seed)) = (
        program,
        numbers.next().unwrap_or(Ok(200)),
        numbers.next().unwrap_or(Ok(LIST_SEED)),
    ) else {
        eprintln!("usage: replay_lists PROGRAM [COUNT [SEED]]");
        return ExitCode::FAILURE;
    };
    let mut script = Script::default();
    script.before();
    for list in 0..count {
        script.list(&mut Random::new(seed + list));
    }
    let output = match program::output(&program, &script.input) {
        Ok(output) => output,
        Err(error) => {
            println!("error: {program}: {error}");
            return ExitCode::FAILURE;
        }
    };
    if let Some(difference) = difference(&script, &output) {
        println!("{difference}");
        return ExitCode::FAILURE;
    }
    let answers = script.expected.len();
    println!("{count} lists, {answers} answers: no difference");
    let wrong = script.coverage();
    for line in &wrong {
        println!("error: {line}");
    }
    match wrong.is_empty() {
        true => ExitCode::SUCCESS,
        false => ExitCode::FAILURE,
    }
}
