//! `board [--fault NAME]`: takes console lines on standard input and writes a
//! board's log on standard output: each line, and behind those that ask
//! ` = ANSWER`. Lines of no form, and accesses that no bus has, are left out: a
//! board never saw them.
//! `board --list`: the faults that a board can have, by name.

#![forbid(unsafe_code)]

use std::io::{self, BufRead, BufWriter, ErrorKind, Write};
use std::process::ExitCode;

use second::board::{Board, Fault, FAULTS};

const USAGE: &str = "usage: board [--fault NAME]
       board --list";

/// What the arguments ask for.
enum Task {
    Log(Option<Fault>),
    List,
}

impl Task {
    /// The task of these arguments, if they are of the form in [`USAGE`].
    fn of(arguments: &[String]) -> Option<Task> {
        match arguments {
            [] => Some(Task::Log(None)),
            [word] if word == "--list" => Some(Task::List),
            [word, name] if word == "--fault" => {
                Fault::named(name).map(|fault| Task::Log(Some(fault)))
            }
            _ => None,
        }
    }
}

/// Does what is asked for.
fn perform(task: &Task) -> io::Result<()> {
    let mut output = BufWriter::new(io::stdout().lock());
    match task {
        Task::Log(fault) => log(*fault, &mut output)?,
        Task::List => list(&mut output)?,
    }
    output.flush()
}

/// The log of a session.
fn log(fault: Option<Fault>, output: &mut impl Write) -> io::Result<()> {
    let mut board = Board::fresh(fault);
    for line in io::stdin().lock().split(b'\n') {
        if let Some(entry) = board.log(&line?) {
            writeln!(output, "{entry}")?;
        }
    }
    Ok(())
}

fn list(output: &mut impl Write) -> io::Result<()> {
    for (_, name, what) in FAULTS {
        writeln!(output, "{name:<20} {what}")?;
    }
    Ok(())
}

fn main() -> ExitCode {
    let arguments: Vec<String> = std::env::args().skip(1).collect();
    let task = match Task::of(&arguments) {
        Some(task) => task,
        None => {
            eprintln!("{USAGE}");
            return ExitCode::from(2);
        }
    };
    match perform(&task) {
        Ok(()) => ExitCode::SUCCESS,
        Err(error) if error.kind() == ErrorKind::BrokenPipe => ExitCode::SUCCESS,
        Err(error) => {
            eprintln!("board: {error}");
            ExitCode::FAILURE
        }
    }
}
