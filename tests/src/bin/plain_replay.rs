//! Answers a list of calls as the program `replay` must, by the plain
//! machine: `plain_replay <LIST`.

use std::io::{stdin, stdout, BufRead, BufWriter, Result, Write};

use compare::replay::Replay;

fn main() -> Result<()> {
    let mut replay = Replay::default();
    let mut out = BufWriter::new(stdout());
    for line in stdin().lock().split(b'\n') {
        if let Some(answer) = replay.answer(&line?) {
            writeln!(out, "{answer}")?;
        }
    }
    out.flush()
}
