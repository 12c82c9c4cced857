//! A program of the repository, run on an input.

use std::io::{Read, Result, Write};
use std::process::{Command, Stdio};
use std::thread;

/// What the program writes for the input on its standard input.
pub fn output(program: &str, input: &[u8]) -> Result<Vec<u8>> {
    let mut child = Command::new(program)
        .stdin(Stdio::piped())
        .stdout(Stdio::piped())
        .spawn()?;
    let mut stdin = child.stdin.take().expect("a pipe");
    let mut stdout = child.stdout.take().expect("a pipe");
    let mut output = Vec::new();
    // It may write before it has read everything.
    thread::scope(|scope| {
        let written = scope.spawn(move || stdin.write_all(input));
        stdout.read_to_end(&mut output)?;
        written.join().expect("the writer")
    })?;
    child.wait()?;
    Ok(output)
}
