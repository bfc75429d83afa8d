//! The programs themselves, run as children.

use std::fs;
use std::io::{BufRead, BufReader, Read, Write};
use std::os::unix::fs::PermissionsExt;
use std::path::PathBuf;
use std::process::{Child, Command, Output, Stdio};
use std::sync::Mutex;
use std::thread;

use second::line::Mode::{Console, Player};
use second::player::answers;
use second::session::text;
use second::trace::console_line;

const SECOND: &str = env!("CARGO_BIN_EXE_second");
const SESSIONS: &str = env!("CARGO_BIN_EXE_sessions");
const TRACE: &str = env!("CARGO_BIN_EXE_trace");
const COMPARE: &str = env!("CARGO_BIN_EXE_compare");
const ONE_BY_ONE: &str = env!("CARGO_BIN_EXE_one-by-one");
const SENTENCES: &str = env!("CARGO_BIN_EXE_sentences");
const UART: &str = concat!(env!("CARGO_MANIFEST_DIR"), "/../../examples/uart.sheet");
const RECORDED: &str = concat!(env!("CARGO_MANIFEST_DIR"), "/../data/seabios-linux.console");

/// Held while a script is written or a child starts: a child that starts
/// meanwhile holds the script open for a moment, and it can't be run then.
static STARTING: Mutex<()> = Mutex::new(());

/// Starts a program with all ends piped.
fn start(program: &str, arguments: &[&str]) -> Child {
    let _starting = STARTING.lock().unwrap();
    Command::new(program)
        .args(arguments)
        .stdin(Stdio::piped())
        .stdout(Stdio::piped())
        .stderr(Stdio::piped())
        .spawn()
        .unwrap()
}

/// Runs a program on an input.
fn run(program: &str, arguments: &[&str], input: &[u8]) -> Output {
    let mut child = start(program, arguments);
    let mut stdin = child.stdin.take().unwrap();
    thread::scope(|scope| {
        scope.spawn(move || stdin.write_all(input));
        child.wait_with_output().unwrap()
    })
}

#[test]
fn second_plays_both_modes() {
    for (arguments, mode) in [
        (vec![], Player),
        (vec!["player"], Player),
        (vec!["console"], Console),
    ] {
        let session = text(3, 3_000, mode);
        let output = run(SECOND, &arguments, &session);
        assert!(output.status.success());
        assert_eq!(output.stdout, answers(&session, mode));
    }
}

#[test]
fn second_refuses_other_arguments() {
    for arguments in [vec!["Player"], vec![""], vec!["player", "console"]] {
        assert_eq!(run(SECOND, &arguments, b"").status.code(), Some(2));
    }
}

#[test]
fn second_answers_before_it_waits() {
    let mut child = start(SECOND, &[]);
    let mut input = child.stdin.take().unwrap();
    let mut output = BufReader::new(child.stdout.take().unwrap());
    for (line, wanted) in [
        ("W 2C F 12345678\n", "OK\n"),
        ("R 2C F\n", "OK 12345678\n"),
        ("\n", "NO 9\n"),
    ] {
        let mut said = String::new();
        input.write_all(line.as_bytes()).unwrap();
        output.read_line(&mut said).unwrap();
        assert_eq!(said, wanted);
    }
    drop(input);
    assert!(child.wait().unwrap().success());
}

#[test]
fn second_ends_quietly_when_its_output_closes() {
    let mut child = start(SECOND, &[]);
    drop(child.stdout.take());
    let mut input = child.stdin.take().unwrap();
    let session = "R 00 F\n".repeat(50_000);
    let _ = input.write_all(session.as_bytes());
    drop(input);
    let mut complaint = String::new();
    child
        .stderr
        .take()
        .unwrap()
        .read_to_string(&mut complaint)
        .unwrap();
    assert_eq!(complaint, "");
    assert!(child.wait().unwrap().success());
}

#[test]
fn sessions_prints_made_sessions() {
    assert_eq!(
        run(SESSIONS, &["5", "300"], b"").stdout,
        text(5, 300, Player)
    );
    assert_eq!(
        run(SESSIONS, &["5", "300", "console"], b"").stdout,
        text(5, 300, Console)
    );
    assert_eq!(run(SESSIONS, &["5"], b"").status.code(), Some(2));
}

#[test]
fn trace_lines() {
    for (line, wanted) in [
        ("write 0xcf8 4 0x80000000", "O 0CF8 4 80000000"),
        ("read 0xcfc 2 0x8086", "I 0CFC 2"),
        ("write 0xcfb 1 0x1", "O 0CFB 1 00000001"),
        ("read 0xcfc 2 0xffffffff", "I 0CFC 2"),
    ] {
        assert_eq!(console_line(line).as_deref(), Ok(wanted));
    }
    for line in [
        "",
        "read",
        "read 0xcfc 2",
        "read 0xcfc 2 0x8086 ",
        "read  0xcfc 2 0x8086",
        "READ 0xcfc 2 0x8086",
        "read cfc 2 0x8086",
        "read 0xcfc 3 0x8086",
        "read 0xcfc 2 8086",
        "read 0x10000 2 0x0",
        "write 0xcfc 4 0x100000000",
        "write 0xcfc 4 0x",
        "write 0xcfc 4 0x+1",
        "read 0xcfc 2 0x8086\r",
        "# read 0xcfc 2 0x0",
    ] {
        assert!(console_line(line).is_err(), "{line:?}");
    }
}

#[test]
fn trace_fails_loudly() {
    let output = run(TRACE, &[], b"read 0xcfc 2 0x8086\nread 0xcfc 2 oops\n");
    assert_eq!(output.status.code(), Some(1));
    assert!(String::from_utf8(output.stderr).unwrap().contains("line 2"));
}

#[test]
fn the_recorded_boot_is_all_port_lines() {
    let session = std::fs::read(RECORDED).unwrap();
    let said = String::from_utf8(answers(&session, Console)).unwrap();
    assert_eq!(said.lines().count(), 2163);
    assert_eq!(
        said.lines()
            .filter(|line| ["NO 2", "NO 9"].contains(line))
            .count(),
        0
    );
}

#[test]
fn compare_agrees_with_second() {
    for arguments in [
        vec!["--seeds", "0..3", "--lines", "2000", SECOND],
        vec!["--split", SECOND],
        vec!["--file", RECORDED, SECOND],
    ] {
        let output = run(COMPARE, &arguments, b"");
        let said = String::from_utf8(output.stdout).unwrap();
        assert!(output.status.success(), "{said}");
        assert!(said.contains("lines agreed"), "{said}");
    }
}

#[test]
fn compare_shows_a_difference() {
    for arguments in [
        vec!["--mode", "console", "--seeds", "4..5", SECOND],
        vec!["--mode", "console", "--file", RECORDED, SECOND],
        vec!["--split", "/bin/cat"],
        vec!["/bin/true"],
        vec!["/bin/false"],
    ] {
        let output = run(COMPARE, &arguments, b"");
        let said = String::from_utf8(output.stdout).unwrap();
        assert_eq!(output.status.code(), Some(1), "{said}");
        assert!(
            said.contains("DIFFERENCE") && said.contains("line "),
            "{said}"
        );
    }
}

#[test]
fn compare_refuses_wrong_calls() {
    for arguments in [
        vec![],
        vec!["--mode", "other", SECOND],
        vec!["--seeds", "5..5", SECOND],
        vec!["--seeds", "5", SECOND],
        vec!["--other", SECOND],
        vec![SECOND, "console"],
        vec!["/nowhere/at/all"],
        vec!["--file", "/nowhere/at/all", SECOND],
    ] {
        assert_eq!(
            run(COMPARE, &arguments, b"").status.code(),
            Some(2),
            "{arguments:?}"
        );
    }
}

/// A program in the shell's language.
fn script(name: &str, text: &str) -> String {
    let _starting = STARTING.lock().unwrap();
    let path = PathBuf::from(env!("CARGO_TARGET_TMPDIR")).join(name);
    fs::write(&path, format!("#!/bin/sh\n{text}\n")).unwrap();
    fs::set_permissions(&path, fs::Permissions::from_mode(0o755)).unwrap();
    path.to_str().unwrap().to_string()
}

/// How `one-by-one` ends on 500 lines, and what it says.
fn one_by_one(arguments: &[&str]) -> (Option<i32>, String) {
    let arguments = [&["--lines", "500"], arguments].concat();
    let output = run(ONE_BY_ONE, &arguments, b"");
    (
        output.status.code(),
        String::from_utf8(output.stdout).unwrap(),
    )
}

#[test]
fn one_by_one_agrees_with_second() {
    let console = script("one-console", &format!("exec {SECOND} console"));
    let sheet = script("one-sheet", &format!("exec {SECOND} sheet \"$1\""));
    for arguments in [
        &["player", SECOND][..],
        &["console", &console],
        &["sheet", &sheet, UART],
    ] {
        let said = (Some(0), "500 lines agreed, one by one\n".to_string());
        assert_eq!(one_by_one(arguments), said);
    }
}

#[test]
fn one_by_one_finds_a_program_that_stops() {
    // So many reads, each handed on before the next.
    let reads = |count: u32| format!("dd bs=65536 count={count} status=none");
    for (count, found) in [(499, true), (600, false)] {
        let reads = reads(count);
        let player = script("few-player", &format!("{reads} | {SECOND}"));
        let (code, said) = one_by_one(&["player", &player]);
        assert_eq!(code, Some(i32::from(found)), "{said}");
        assert_eq!(said.contains("line 500:"), found, "{said}");
        let sheet = script("few-sheet", &format!("{reads} | {SECOND} sheet \"$1\""));
        let (code, said) = one_by_one(&["sheet", &sheet, UART]);
        assert_eq!(code, Some(i32::from(found)), "{said}");
    }
    let deaf = script("deaf-snapshot", &format!("{} >/dev/null", reads(100)));
    let (code, said) = one_by_one(&["snapshot", &deaf]);
    assert_eq!(code, Some(1), "{said}");
    assert!(said.contains("takes no more"), "{said}");
}

#[test]
fn one_by_one_shows_a_difference() {
    // A snapshot of the fresh twin, whatever it is given.
    let fresh = concat!(env!("CARGO_MANIFEST_DIR"), "/../data/fresh.lspci");
    let fresh = script(
        "fresh-snapshot",
        &format!("dd bs=65536 status=none >/dev/null; cat {fresh}"),
    );
    for arguments in [
        &["console", SECOND][..],
        &["player", "/bin/cat"],
        &["player", "/bin/true"],
        &["snapshot", "/bin/true"],
        &["snapshot", &fresh],
        &["sheet", "/bin/cat", UART],
    ] {
        let (code, said) = one_by_one(arguments);
        assert_eq!(code, Some(1), "{arguments:?}: {said}");
        assert!(said.contains("DIFFERENCE"), "{said}");
    }
}

#[test]
fn one_by_one_refuses_wrong_calls() {
    for arguments in [
        &[][..],
        &["player"],
        &["sheet", SECOND],
        &["snapshot", SECOND, UART],
        &["other", SECOND],
        &["player", "/nowhere/at/all"],
        &["sheet", SECOND, RECORDED],
        &["sheet", SECOND, "/nowhere/at/all"],
    ] {
        assert_eq!(one_by_one(arguments).0, Some(2), "{arguments:?}");
    }
}

#[test]
fn sentences_shows_a_difference() {
    let sheet = script("sentence-sheet", &format!("exec {SECOND} sheet \"$1\""));
    for arguments in [[&sheet, "/bin/true"], ["/bin/cat", &sheet]] {
        let output = run(SENTENCES, &arguments, b"");
        let said = String::from_utf8(output.stdout).unwrap();
        assert_eq!(output.status.code(), Some(1), "{said}");
        assert!(said.contains("DIFFERENCE"), "{said}");
    }
    for arguments in [&[][..], &[SECOND], &["/nowhere/at/all", SECOND]] {
        let output = run(SENTENCES, arguments, b"");
        assert_eq!(output.status.code(), Some(2), "{arguments:?}");
    }
}
