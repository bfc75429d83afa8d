//! Compares another program with this one on the same input.
//!
//! - `compare [--mode player|console] [--seeds A..B] [--lines N] PROGRAM`:
//!   one made session for each seed from A up to, but not including, B;
//! - `compare [--mode player|console] --file F PROGRAM`: a recorded session;
//! - `compare [--mode player|console] [--seeds A..B] [--lines N] --split PROGRAM`:
//!   the first seed's session without its very long lines, fed in pieces of
//!   every size from 1 to 40 bytes, with and without the last LF.
//!
//! PROGRAM is a path; it is run without arguments. Its whole output must be
//! the same bytes as ours, and it must end with status 0. Status 1 tells of a
//! difference, status 2 of a mistake in calling.

#![forbid(unsafe_code)]

use std::fmt;
use std::ops::Range;
use std::process::{Command, ExitCode};

use second::child;
use second::comparison::{end, seeds, Trouble};
use second::difference::{difference, lines};
use second::line::Mode;
use second::player;
use second::session::{self, Session};

const USAGE: &str = "usage: compare [--mode player|console] [--seeds A..B] [--lines N] PROGRAM
       compare [--mode player|console] --file F PROGRAM
       compare [--mode player|console] [--seeds A..B] [--lines N] --split PROGRAM";

/// Lines of a session unless `--lines` is given.
const USUAL_LINES: u64 = 5_000;
/// Lines of a split session unless `--lines` is given.
const USUAL_SPLIT_LINES: u64 = 300;
/// A split session has no line longer than this.
const LONGEST_SPLIT_LINE: usize = 200;
/// Sizes of the pieces of a split session.
const PIECES: std::ops::RangeInclusive<usize> = 1..=40;

/// Where the sessions come from.
enum Source {
    Seeds,
    File(String),
    Split,
}

/// The arguments.
struct Arguments {
    mode: Mode,
    seeds: Range<u64>,
    lines: Option<u64>,
    source: Source,
    program: String,
}

impl Arguments {
    /// Reads the arguments, if they are of the form in [`USAGE`].
    fn read(mut words: impl Iterator<Item = String>) -> Option<Arguments> {
        let mut arguments = Arguments {
            mode: Mode::Player,
            seeds: 0..20,
            lines: None,
            source: Source::Seeds,
            program: String::new(),
        };
        loop {
            let word = words.next()?;
            match word.as_str() {
                "--mode" => arguments.mode = Mode::named(&words.next()?)?,
                "--seeds" => arguments.seeds = seeds(&words.next()?)?,
                "--lines" => arguments.lines = Some(words.next()?.parse().ok()?),
                "--file" => arguments.source = Source::File(words.next()?),
                "--split" => arguments.source = Source::Split,
                option if option.starts_with("--") => return None,
                program => {
                    arguments.program = program.to_string();
                    return words.next().is_none().then_some(arguments);
                }
            }
        }
    }
}

/// How many lines agreed in how many sessions.
#[derive(Default)]
struct Agreed {
    lines: usize,
    sessions: usize,
}

impl fmt::Display for Agreed {
    fn fmt(&self, f: &mut fmt::Formatter<'_>) -> fmt::Result {
        write!(
            f,
            "{} lines agreed in {} sessions",
            self.lines, self.sessions
        )
    }
}

/// A session, what it is called, and the size of the pieces it is fed in.
struct Input<'a> {
    name: String,
    session: &'a [u8],
    piece: usize,
}

/// Feeds one session to the program and to our player and compares.
fn check(arguments: &Arguments, input: &Input, agreed: &mut Agreed) -> Result<(), Trouble> {
    let ours = player::answers(input.session, arguments.mode);
    let mut program = Command::new(&arguments.program);
    let theirs = child::run(&mut program, input.session, input.piece)?;
    let status = theirs.status;
    if let Some(difference) = difference(input.session, &ours, &theirs.stdout) {
        let report = format!(
            "{}, {difference}\n  program ended with {status}",
            input.name
        );
        return Err(Trouble::Difference(report));
    }
    if !status.success() {
        let report = format!("{}: program ended with {status}", input.name);
        return Err(Trouble::Difference(report));
    }
    agreed.lines += lines(input.session).count();
    agreed.sessions += 1;
    Ok(())
}

/// Compares the made session of each seed.
fn check_seeds(arguments: &Arguments, agreed: &mut Agreed) -> Result<(), Trouble> {
    let count = arguments.lines.unwrap_or(USUAL_LINES);
    for seed in arguments.seeds.clone() {
        let input = Input {
            name: format!("seed {seed}"),
            session: &session::text(seed, count, arguments.mode),
            piece: usize::MAX,
        };
        check(arguments, &input, agreed)?;
    }
    Ok(())
}

/// Compares a recorded session.
fn check_file(arguments: &Arguments, file: &str, agreed: &mut Agreed) -> Result<(), Trouble> {
    let session =
        std::fs::read(file).map_err(|error| Trouble::Failed(format!("{file}: {error}")))?;
    let input = Input {
        name: file.to_string(),
        session: &session,
        piece: usize::MAX,
    };
    check(arguments, &input, agreed)
}

/// Compares a small session fed in pieces of every size.
fn check_split(arguments: &Arguments, agreed: &mut Agreed) -> Result<(), Trouble> {
    let whole = small_session(arguments);
    let without_last_lf = whole.strip_suffix(b"\n").unwrap_or(&whole);
    for piece in PIECES {
        for session in [&whole, without_last_lf] {
            let name = format!("seed {}, pieces of {piece} bytes", arguments.seeds.start);
            check(
                arguments,
                &Input {
                    name,
                    session,
                    piece,
                },
                agreed,
            )?;
        }
    }
    Ok(())
}

/// The first seed's session without its very long lines.
fn small_session(arguments: &Arguments) -> Vec<u8> {
    let mut session = Session::new(arguments.seeds.start, arguments.mode);
    let mut text = Vec::new();
    let mut missing = arguments.lines.unwrap_or(USUAL_SPLIT_LINES);
    while missing > 0 {
        let line = session.next_line();
        if line.len() <= LONGEST_SPLIT_LINE {
            text.extend_from_slice(&line);
            text.push(b'\n');
            missing -= 1;
        }
    }
    text
}

/// Compares all that the arguments ask for.
fn check_all(arguments: &Arguments, agreed: &mut Agreed) -> Result<(), Trouble> {
    match &arguments.source {
        Source::Seeds => check_seeds(arguments, agreed),
        Source::File(file) => check_file(arguments, file, agreed),
        Source::Split => check_split(arguments, agreed),
    }
}

fn main() -> ExitCode {
    let arguments = match Arguments::read(std::env::args().skip(1)) {
        Some(arguments) => arguments,
        None => {
            eprintln!("{USAGE}");
            return ExitCode::from(2);
        }
    };
    let mut agreed = Agreed::default();
    let result = check_all(&arguments, &mut agreed);
    end("compare", &agreed, result)
}
