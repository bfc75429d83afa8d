//! Compares two programs that take register sheets with this one.
//!
//! `compare-sheets [--seeds A..B] [--lines N] PLAYER SHOW`: for each seed from
//! A up to, but not including, B a good sheet of each shape and a sheet with
//! each kind of damage. PLAYER and SHOW are paths; each is run with a sheet's
//! file as its argument, PLAYER with a session on standard input. Standard
//! output must be the same bytes as ours. Standard error must be empty for a
//! good sheet, and for a refused one a line that names the faulty entry as
//! `entry K`, from 1, if the fault is in one. N is the number of lines of a
//! seed's longest session. Status 1 tells of a difference, status 2 of a
//! mistake in calling or of a kind of sheet that wasn't made.

#![forbid(unsafe_code)]

use std::fs;
use std::ops::Range;
use std::path::Path;
use std::process::{Command, ExitCode, Stdio};
use std::thread;

use second::child;
use second::comparison::{end, seeds, Trouble};
use second::folder::Folder;
use second::sheet_comparison::{cases, check, Case, Said, Tally};

const USAGE: &str = "usage: compare-sheets [--seeds A..B] [--lines N] PLAYER SHOW";

/// Lines of a seed's longest session unless `--lines` is given.
const USUAL_LINES: u64 = 5_000;

/// The arguments.
struct Arguments {
    seeds: Range<u64>,
    lines: u64,
    player: String,
    show: String,
}

impl Arguments {
    /// Reads the arguments, if they are of the form in [`USAGE`].
    fn read(mut words: impl Iterator<Item = String>) -> Option<Arguments> {
        let (mut seeds_given, mut lines) = (0..20, USUAL_LINES);
        loop {
            let word = words.next()?;
            match word.as_str() {
                "--seeds" => seeds_given = seeds(&words.next()?)?,
                "--lines" => lines = words.next()?.parse().ok()?,
                option if option.starts_with("--") => return None,
                _ => {
                    let arguments = Arguments {
                        seeds: seeds_given,
                        lines,
                        player: word,
                        show: words.next()?,
                    };
                    return words.next().is_none().then_some(arguments);
                }
            }
        }
    }
}

/// What a program says of a sheet's file.
fn said(program: &str, file: &Path, input: &[u8], piece: usize) -> Result<Said, Trouble> {
    let mut command = Command::new(program);
    command.arg(file).stderr(Stdio::piped());
    let output = child::run(&mut command, input, piece)?;
    if output.status.code().is_none() {
        let report = format!("the end of {program}: {}", output.status);
        return Err(Trouble::Difference(report));
    }
    Ok(Said {
        output: output.stdout,
        complaint: output.stderr,
    })
}

/// Runs both programs on a case, side by side, and compares.
fn check_case(arguments: &Arguments, case: &Case, file: &Path) -> Result<(), Trouble> {
    fs::write(file, &case.sheet)?;
    let (by_player, by_show) = thread::scope(|scope| {
        let show = scope.spawn(|| said(&arguments.show, file, b"", usize::MAX));
        let by_player = said(&arguments.player, file, &case.session, case.piece);
        (by_player, show.join().expect("a run ends without panic"))
    });
    check(case, &by_player?, &by_show?).map_err(Trouble::Difference)
}

/// Compares the cases of each seed.
fn check_all(arguments: &Arguments, tally: &mut Tally) -> Result<(), Trouble> {
    let folder = Folder::new("compare-sheets")?;
    let file = folder.file("made.sheet");
    for seed in arguments.seeds.clone() {
        for case in cases(seed, arguments.lines) {
            check_case(arguments, &case, &file)?;
            tally.add(&case);
        }
    }
    match tally.missing().as_slice() {
        [] => Ok(()),
        missing => Err(Trouble::Failed(format!(
            "never made: {}",
            missing.join("; ")
        ))),
    }
}

fn main() -> ExitCode {
    let arguments = match Arguments::read(std::env::args().skip(1)) {
        Some(arguments) => arguments,
        None => {
            eprintln!("{USAGE}");
            return ExitCode::from(2);
        }
    };
    let mut tally = Tally::default();
    let result = check_all(&arguments, &mut tally);
    end("compare-sheets", &tally, result)
}
