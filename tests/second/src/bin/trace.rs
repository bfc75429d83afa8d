//! `trace`: turns a recorded port trace on standard input into console lines
//! on standard output. It stops with status 1 at a line it can't read.

#![forbid(unsafe_code)]

use std::io::{self, BufWriter, ErrorKind, Read, Write};
use std::process::ExitCode;

use second::trace::console_line;

/// Turns all of the trace into console lines.
fn convert() -> io::Result<()> {
    let mut trace = String::new();
    io::stdin().read_to_string(&mut trace)?;
    let mut output = BufWriter::new(io::stdout().lock());
    for (index, line) in trace.split_terminator('\n').enumerate() {
        let console = console_line(line).map_err(|what| {
            io::Error::new(
                ErrorKind::InvalidData,
                format!("line {}: {what}", index + 1),
            )
        })?;
        writeln!(output, "{console}")?;
    }
    output.flush()
}

fn main() -> ExitCode {
    match convert() {
        Ok(()) => ExitCode::SUCCESS,
        Err(error) => {
            eprintln!("trace: {error}");
            ExitCode::FAILURE
        }
    }
}
