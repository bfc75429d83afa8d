//! Another program, run as a child on an input.

use std::io::{self, Write};
use std::process::{ChildStdin, Command, Output, Stdio};
use std::thread;

/// The program's whole output for an input that is fed in pieces of that
/// size, and how it ended. Standard error goes where the command says.
pub fn run(command: &mut Command, input: &[u8], piece: usize) -> io::Result<Output> {
    let mut child = command
        .stdin(Stdio::piped())
        .stdout(Stdio::piped())
        .spawn()
        .map_err(|error| {
            let program = command.get_program().to_string_lossy();
            io::Error::new(error.kind(), format!("{program}: {error}"))
        })?;
    let stdin = child.stdin.take().expect("standard input is piped");
    thread::scope(|scope| {
        scope.spawn(move || feed(stdin, input, piece));
        child.wait_with_output()
    })
}

/// Writes the input in pieces and closes the pipe. A program that stops
/// reading early shows in its answers, so that errors here don't matter.
fn feed(mut stdin: ChildStdin, input: &[u8], piece: usize) {
    for part in input.chunks(piece) {
        if stdin.write_all(part).and_then(|()| stdin.flush()).is_err() {
            return;
        }
    }
}
