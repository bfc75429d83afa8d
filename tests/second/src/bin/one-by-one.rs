//! Gives lines to a program one by one, each of which it has to read by itself.
//!
//! - `one-by-one [--lines N] player|console PROGRAM`, `one-by-one [--lines N]
//!   sheet PROGRAM SHEET`: a line is sent when the one before it is answered;
//!   each answer must be ours.
//! - `one-by-one [--lines N] snapshot PROGRAM`: a program that answers nothing
//!   until its input ends gets each line in a message that one read takes; what
//!   it writes then must be our 256 bytes in the form of `lspci -n -xxx`.
//!
//! So a program that stops after fewer reads than there are lines is found.
//! Status 1 tells of a difference, status 2 of a mistake in calling.

#![forbid(unsafe_code)]

use std::fmt;
use std::io::{self, BufRead, BufReader, Read, Write};
use std::os::unix::io::OwnedFd;
use std::os::unix::net::UnixDatagram;
use std::process::{Child, Command, ExitCode, Stdio};

use second::comparison::{end, Trouble};
use second::difference::lines;
use second::line::{answer, Mode};
use second::map::BYTES;
use second::plain_device::PlainDevice;
use second::player::{Listener, Player};
use second::rng::Rng;
use second::session::Session;
use second::sheet::{self, Sheet};
use second::sheet_session;
use second::twin::Twin;

const USAGE: &str = "usage: one-by-one [--lines N] player|console PROGRAM
       one-by-one [--lines N] sheet PROGRAM SHEET
       one-by-one [--lines N] snapshot PROGRAM";

/// Lines unless `--lines` is given: more than 16 bits count.
const USUAL_LINES: usize = 70_000;
/// No line is longer, so that one read takes it.
const LONGEST: usize = 200;
/// The seed of the session.
const SEED: u64 = 11;
/// A snapshot's session ends so: not busy, and with a byte that shows whether
/// the last line was played.
const CLOSING: [&[u8]; 2] = [b"E\n", b"W 3C 1 000000A7\n"];

/// What is to be done.
enum Task {
    Session(Mode),
    Sheet(String),
    Snapshot,
}

/// The arguments.
struct Arguments {
    lines: usize,
    task: Task,
    program: String,
}

impl Arguments {
    /// Reads the arguments, if they are of the form in [`USAGE`].
    fn read(words: &[String]) -> Option<Arguments> {
        let (lines, words) = match words {
            [option, lines, rest @ ..] if option == "--lines" => (lines.parse().ok()?, rest),
            _ => (USUAL_LINES, words),
        };
        let (task, program) = match words {
            [name, program] if name == "snapshot" => (Task::Snapshot, program),
            [name, program] => (Task::Session(Mode::named(name)?), program),
            [name, program, sheet] if name == "sheet" => (Task::Sheet(sheet.clone()), program),
            _ => return None,
        };
        let program = program.clone();
        Some(Arguments {
            lines,
            task,
            program,
        })
    }
}

/// How many lines have agreed.
#[derive(Default)]
struct Agreed {
    lines: usize,
}

impl fmt::Display for Agreed {
    fn fmt(&self, f: &mut fmt::Formatter<'_>) -> fmt::Result {
        write!(f, "{} lines agreed, one by one", self.lines)
    }
}

/// A made session of so many lines for the twin, each with its LF.
fn twin_lines(count: usize, mode: Mode) -> Vec<Vec<u8>> {
    let mut session = Session::new(SEED, mode);
    std::iter::repeat_with(|| session.next_line())
        .filter(|line| line.len() < LONGEST)
        .map(|line| [&line[..], b"\n"].concat())
        .take(count)
        .collect()
}

/// A made session of so many lines for a sheet's device, each with its LF.
fn sheet_lines(count: usize, sheet: &Sheet) -> Vec<Vec<u8>> {
    let mut text = sheet_session::text(&mut Rng::new(SEED), sheet, count as u64);
    if !text.ends_with(b"\n") {
        text.push(b'\n');
    }
    lines(&text).map(<[u8]>::to_vec).collect()
}

/// Starts a program with that input and its output piped.
fn start(program: &str, argument: Option<&str>, input: Stdio) -> io::Result<Child> {
    // The command goes here, and our end of the program's input with it: a
    // program that has ended then shows in the next send.
    Command::new(program)
        .args(argument)
        .stdin(input)
        .stdout(Stdio::piped())
        .spawn()
        .map_err(|error| io::Error::new(error.kind(), format!("{program}: {error}")))
}

/// The rest of a program's output when its input has ended, and a good end.
fn rest(mut child: Child, output: &mut impl Read) -> Result<Vec<u8>, Trouble> {
    let mut rest = Vec::new();
    output.read_to_end(&mut rest)?;
    let status = child.wait()?;
    if status.success() {
        return Ok(rest);
    }
    Err(Trouble::Difference(format!("the program's end: {status}")))
}

/// Sends each line when the one before it is answered.
fn check_answers(
    mut child: Child,
    mut ours: Player<impl Listener>,
    session: &[Vec<u8>],
    agreed: &mut Agreed,
) -> Result<(), Trouble> {
    let mut input = child.stdin.take().expect("standard input is piped");
    let mut output = BufReader::new(child.stdout.take().expect("standard output is piped"));
    for line in session {
        // A program that has ended shows in its answer.
        let _ = input.write_all(line).and_then(|()| input.flush());
        let (mut wanted, mut said) = (Vec::new(), Vec::new());
        ours.feed(line, &mut wanted);
        output.read_until(b'\n', &mut said)?;
        if said != wanted {
            return Err(Trouble::Difference(format!(
                "line {}: \"{}\"\n  second answers:  \"{}\"\n  program answers: \"{}\"",
                agreed.lines + 1,
                line.escape_ascii(),
                wanted.escape_ascii(),
                said.escape_ascii()
            )));
        }
        agreed.lines += 1;
    }
    drop(input);
    match rest(child, &mut output)?.as_slice() {
        [] => Ok(()),
        rest => Err(Trouble::Difference(format!(
            "what follows the last answer: \"{}\"",
            rest.escape_ascii()
        ))),
    }
}

/// The bytes in the form of `lspci -n -xxx`, as docs/CONSOLE.md shows it.
fn dump(bytes: &[u8; BYTES]) -> String {
    let [vendor, device, class] =
        [0, 2, 0x0A].map(|at| u16::from_le_bytes([bytes[at], bytes[at + 1]]));
    let revision = match bytes[8] {
        0 => String::new(),
        revision => format!(" (rev {revision:02x})"),
    };
    let head = format!("00:02.0 {class:04x}: {vendor:04x}:{device:04x}{revision}\n");
    let rows = bytes.chunks(16).enumerate().map(|(row, bytes)| {
        let bytes: String = bytes.iter().map(|byte| format!(" {byte:02x}")).collect();
        format!("{row:x}0:{bytes}\n")
    });
    let end = "\n".to_string();
    std::iter::once(head)
        .chain(rows)
        .chain(std::iter::once(end))
        .collect()
}

/// Sends each line in a message; an empty one is the end of the input.
fn check_snapshot(program: &str, session: &[Vec<u8>], agreed: &mut Agreed) -> Result<(), Trouble> {
    let (input, theirs) = UnixDatagram::pair()?;
    let mut child = start(program, None, Stdio::from(OwnedFd::from(theirs)))?;
    let mut output = child.stdout.take().expect("standard output is piped");
    let mut twin = Twin::fresh();
    let closing = CLOSING.iter().map(|line| line.to_vec());
    let mut sent = 0;
    for line in session.iter().cloned().chain(closing) {
        if let Err(error) = input.send(&line) {
            let report = format!("line {}: the program takes no more: {error}", sent + 1);
            return Err(Trouble::Difference(report));
        }
        answer(&mut twin, &line[..line.len() - 1], Mode::Console);
        sent += 1;
    }
    // A program that has ended shows in what it wrote.
    let _ = input.send(&[]);
    let said = rest(child, &mut output)?;
    let wanted = dump(&twin.bytes());
    if said == wanted.as_bytes() {
        agreed.lines = sent;
        return Ok(());
    }
    Err(Trouble::Difference(format!(
        "the snapshot: wanted is\n{wanted}and the program's is\n{}",
        String::from_utf8_lossy(&said)
    )))
}

fn check_all(arguments: &Arguments, agreed: &mut Agreed) -> Result<(), Trouble> {
    let Arguments { lines, program, .. } = arguments;
    match &arguments.task {
        Task::Session(mode) => {
            let child = start(program, None, Stdio::piped())?;
            let session = twin_lines(*lines, *mode);
            check_answers(child, Player::new(*mode), &session, agreed)
        }
        Task::Sheet(file) => {
            let sheet = sheet::read(&std::fs::read(file)?)
                .map_err(|fault| Trouble::Failed(format!("{file}: {fault}")))?;
            let child = start(program, Some(file), Stdio::piped())?;
            let ours = Player::with(PlainDevice::fresh(&sheet));
            check_answers(child, ours, &sheet_lines(*lines, &sheet), agreed)
        }
        Task::Snapshot => check_snapshot(program, &twin_lines(*lines, Mode::Console), agreed),
    }
}

fn main() -> ExitCode {
    let words: Vec<String> = std::env::args().skip(1).collect();
    let arguments = match Arguments::read(&words) {
        Some(arguments) => arguments,
        None => {
            eprintln!("{USAGE}");
            return ExitCode::from(2);
        }
    };
    let mut agreed = Agreed::default();
    let result = check_all(&arguments, &mut agreed);
    end("one-by-one", &agreed, result)
}
