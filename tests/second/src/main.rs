//! `second [player|console]`: reads a session from standard input and writes
//! one answer line for each of its lines to standard output.
//! `second sheet FILE`: the same on the device of a register sheet.
//! `second show FILE`: prints a register sheet as a table.

#![forbid(unsafe_code)]

use std::fs::File;
use std::io::{self, ErrorKind, Read, Write};
use std::process::ExitCode;

use second::line::Mode;
use second::plain_device::PlainDevice;
use second::player::{play, Player};
use second::sheet::{self, Sheet};

const USAGE: &str = "usage: second [player|console]
       second sheet FILE
       second show FILE";

/// What the arguments ask for.
enum Task {
    Session(Mode),
    SheetSession(String),
    Show(String),
}

impl Task {
    /// The task of these arguments, if they are of the form in [`USAGE`].
    fn of(arguments: &[String]) -> Option<Task> {
        match arguments {
            [] => Some(Task::Session(Mode::Player)),
            [name] => Mode::named(name).map(Task::Session),
            [name, file] if name == "sheet" => Some(Task::SheetSession(file.clone())),
            [name, file] if name == "show" => Some(Task::Show(file.clone())),
            _ => None,
        }
    }
}

/// Does what is asked for.
fn perform(task: &Task) -> io::Result<()> {
    match task {
        Task::Session(mode) => play(&mut io::stdin().lock(), &mut io::stdout().lock(), *mode),
        Task::SheetSession(file) => with_sheet(file, play_on),
        Task::Show(file) => with_sheet(file, show),
    }
}

/// Goes on with the file's sheet, or says its refusal.
fn with_sheet(file: &str, go_on: impl FnOnce(&Sheet) -> io::Result<()>) -> io::Result<()> {
    match sheet::read(&bytes(file)?) {
        Ok(sheet) => go_on(&sheet),
        Err(fault) => {
            eprintln!("second: {file}: {fault}");
            writeln!(io::stdout(), "NO {}", fault.refusal().number())
        }
    }
}

/// The bytes of a file, but none that can't matter: it may have no end. All
/// faults before that of the total length are in the contents, and no sheet's
/// total length is as much as is taken.
fn bytes(file: &str) -> io::Result<Vec<u8>> {
    let mut bytes = Vec::new();
    File::open(file)
        .and_then(|open| open.take(sheet::LONGEST as u64 + 1).read_to_end(&mut bytes))
        .map_err(|error| io::Error::new(error.kind(), format!("{file}: {error}")))?;
    Ok(bytes)
}

fn play_on(sheet: &Sheet) -> io::Result<()> {
    Player::with(PlainDevice::fresh(sheet)).play(&mut io::stdin().lock(), &mut io::stdout().lock())
}

fn show(sheet: &Sheet) -> io::Result<()> {
    io::stdout().write_all(sheet.table().as_bytes())
}

fn main() -> ExitCode {
    let arguments: Vec<String> = std::env::args().skip(1).collect();
    let task = match Task::of(&arguments) {
        Some(task) => task,
        None => {
            eprintln!("{USAGE}");
            return ExitCode::from(2);
        }
    };
    match perform(&task) {
        Ok(()) => ExitCode::SUCCESS,
        Err(error) if error.kind() == ErrorKind::BrokenPipe => ExitCode::SUCCESS,
        Err(error) => {
            eprintln!("second: {error}");
            ExitCode::FAILURE
        }
    }
}
