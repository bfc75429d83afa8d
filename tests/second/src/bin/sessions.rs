//! `sessions SEED LINES [player|console]`: prints a made session, the same
//! one for the same arguments.

#![forbid(unsafe_code)]

use std::io::{self, BufWriter, ErrorKind};
use std::process::ExitCode;

use second::line::Mode;
use second::session::write_session;

/// Seed, number of lines and mode.
fn arguments() -> Option<(u64, u64, Mode)> {
    let arguments: Vec<String> = std::env::args().skip(1).collect();
    let (seed, lines, mode) = match arguments.as_slice() {
        [seed, lines] => (seed, lines, Mode::Player),
        [seed, lines, mode] => (seed, lines, Mode::named(mode)?),
        _ => return None,
    };
    Some((seed.parse().ok()?, lines.parse().ok()?, mode))
}

fn main() -> ExitCode {
    let (seed, lines, mode) = match arguments() {
        Some(arguments) => arguments,
        None => {
            eprintln!("usage: sessions SEED LINES [player|console]");
            return ExitCode::from(2);
        }
    };
    let mut output = BufWriter::new(io::stdout().lock());
    match write_session(&mut output, seed, lines, mode) {
        Ok(()) => ExitCode::SUCCESS,
        Err(error) if error.kind() == ErrorKind::BrokenPipe => ExitCode::SUCCESS,
        Err(error) => {
            eprintln!("sessions: {error}");
            ExitCode::FAILURE
        }
    }
}
