//! Boards: the faithful one answers as the twin does, and each fault shows on
//! the session that `tests/data/boards.txt` has for it.

use std::io::Write;
use std::process::{Command, Output, Stdio};
use std::thread;

use second::board::{Board, Fault, FAULTS};
use second::line::Mode::Console;
use second::player::answers;
use second::session::text;

const BOARD: &str = env!("CARGO_BIN_EXE_board");
/// What the twin says to lines that are no access of a board's bus.
const NO_ACCESS: &[&str] = &["NO 2", "NO 5", "NO 6", "NO 9", "NO 16", ""];
const SESSIONS: &str = include_str!("../../data/boards.txt");

/// A fault's name, the line at which it shows, and the session.
struct Case {
    name: &'static str,
    line: usize,
    session: Vec<&'static str>,
}

fn cases() -> Vec<Case> {
    SESSIONS
        .split("\n== ")
        .skip(1)
        .map(|part| {
            let (heading, session) = part.split_once('\n').unwrap();
            let (name, rest) = heading.split_once(": line ").unwrap();
            let (line, _) = rest.split_once(',').unwrap();
            let session = session.lines().filter(|line| !line.is_empty()).collect();
            let line = line.parse().unwrap();
            Case {
                name,
                line,
                session,
            }
        })
        .collect()
}

/// The log of a session on a board.
fn log(fault: Option<Fault>, session: &[&str]) -> Vec<String> {
    let mut board = Board::fresh(fault);
    session
        .iter()
        .map(|line| board.log(line.as_bytes()).expect(line))
        .collect()
}

/// Runs the program on an input.
fn run(arguments: &[&str], input: &[u8]) -> Output {
    let mut child = Command::new(BOARD)
        .args(arguments)
        .stdin(Stdio::piped())
        .stdout(Stdio::piped())
        .stderr(Stdio::piped())
        .spawn()
        .unwrap();
    let mut stdin = child.stdin.take().unwrap();
    thread::scope(|scope| {
        scope.spawn(move || stdin.write_all(input));
        child.wait_with_output().unwrap()
    })
}

fn is_read(line: &str) -> bool {
    matches!(
        line.as_bytes()[0],
        b'R' | b'I' | b'U' | b'K' | b'A' | b'N' | b'S'
    )
}

#[test]
fn every_fault_has_a_session_and_a_name_of_its_own() {
    let known: Vec<&str> = FAULTS.iter().map(|(_, name, _)| *name).collect();
    let tried: Vec<&str> = cases().iter().map(|case| case.name).collect();
    assert_eq!(tried, known);
    for (fault, name, _) in FAULTS {
        assert_eq!(Fault::named(name), Some(*fault));
    }
    assert_eq!(Fault::named("no-fault"), None);
}

#[test]
fn each_fault_shows_where_its_session_says() {
    for case in cases() {
        let right = log(None, &case.session);
        let wrong = log(Fault::named(case.name), &case.session);
        let first = right.iter().zip(&wrong).position(|(a, b)| a != b);
        assert_eq!(
            first.map(|index| index + 1),
            Some(case.line),
            "{}",
            case.name
        );
    }
}

#[test]
fn each_fault_shows_on_made_sessions_too() {
    for (fault, name, _) in FAULTS {
        let shown = (0..40).any(|seed| {
            let session = text(seed, 3_000, Console);
            let (mut right, mut wrong) = (Board::fresh(None), Board::fresh(Some(*fault)));
            session
                .split(|byte| *byte == b'\n')
                .any(|line| right.log(line) != wrong.log(line))
        });
        assert!(shown, "{name}");
    }
}

#[test]
fn the_faithful_board_answers_as_the_twin_does() {
    for seed in 0..20 {
        let session = text(seed, 3_000, Console);
        let said = answers(&session, Console);
        let mut board = Board::fresh(None);
        for (line, answer) in session
            .split(|byte| *byte == b'\n')
            .zip(said.split(|byte| *byte == b'\n'))
        {
            let (line, answer) = (
                String::from_utf8_lossy(line),
                String::from_utf8_lossy(answer),
            );
            let told = answer.strip_prefix("OK ").unwrap_or(&answer);
            match board.log(line.as_bytes()) {
                None => assert!(NO_ACCESS.contains(&&*answer), "{line}: {answer}"),
                Some(entry) if line.starts_with('I') && told.starts_with("NO") => {
                    assert!(entry.ends_with("FF"), "{entry}");
                }
                Some(entry) if is_read(&line) => assert_eq!(entry, format!("{line} = {told}")),
                Some(entry) => assert_eq!(entry, line),
            }
        }
    }
}

#[test]
fn the_program_writes_a_log() {
    let session = b"W 2C 3 00001234\n# not a line\nr 2c f\n\nR 2C F\nR 2D F\nW 2D F 00000000\nK 13\nI 0CFC 2\nI 0CFC 3\nE";
    let output = run(&[], session);
    assert!(output.status.success());
    assert_eq!(
        String::from_utf8(output.stdout).unwrap(),
        "W 2C 3 00001234\nR 2C F = 00001234\nK 13 = FOUND A4 03\nI 0CFC 2 = 0000FFFF\nE\n"
    );
    let output = run(&["--fault", "lanes-ignored"], b"W 2C 1 FFFFFFFF\nR 2C F\n");
    assert_eq!(output.stdout, b"W 2C 1 FFFFFFFF\nR 2C F = FFFFFFFF\n");
}

#[test]
fn the_program_lists_its_faults_and_refuses_others() {
    let listed = String::from_utf8(run(&["--list"], b"").stdout).unwrap();
    let names: Vec<&str> = listed
        .lines()
        .map(|line| line.split(' ').next().unwrap())
        .collect();
    let known: Vec<&str> = FAULTS.iter().map(|(_, name, _)| *name).collect();
    assert_eq!(names, known);
    for arguments in [
        vec!["--fault"],
        vec!["--fault", "none"],
        vec!["x"],
        vec!["--list", "x"],
    ] {
        assert_eq!(run(&arguments, b"").status.code(), Some(2));
    }
}
