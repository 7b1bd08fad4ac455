//! Another program, given something on its standard input.

use std::io::{self, Write};
use std::process::{Command, Output, Stdio};
use std::thread;

/// What a command, a program and its arguments, makes of this input.
pub fn run(command: &str, input: &[u8]) -> io::Result<Output> {
    let mut words = command.split_whitespace();
    let mut child = Command::new(words.next().unwrap_or_default())
        .args(words)
        .stdin(Stdio::piped())
        .stdout(Stdio::piped())
        .stderr(Stdio::piped())
        .spawn()?;
    let to = child.stdin.take();
    thread::scope(|scope| {
        scope.spawn(move || to.map(|mut to| to.write_all(input)));
        child.wait_with_output()
    })
}
