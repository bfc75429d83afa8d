//! Holds what two programs that take register sheets say on standard error to
//! the sentences of docs/SHEETS.md, word for word.
//!
//! `sentences PLAYER SHOW`: a sheet for each thing that can be wrong with one,
//! and calls that name no sheet. In the sheets no two entries have the same
//! offset, and numbers, offsets, lengths and places differ, so that a sentence
//! with another entry's number or offset, or of another fault, is found. Status
//! 1 tells of a difference, status 2 of a mistake in calling.

#![forbid(unsafe_code)]

use std::fmt;
use std::fs;
use std::path::Path;
use std::process::{Command, ExitCode, Stdio};

use second::child;
use second::comparison::{end, Trouble};
use second::folder::Folder;
use second::sheet::{lay_out, Register};

const USAGE: &str = "usage: sentences PLAYER SHOW";

/// What is wanted of a call with the wrong number of arguments.
const ONE_WANTED: &str = "one argument is wanted: the name of a register sheet's file";

// ---- the sheets

/// Offsets and lengths of twelve registers: contents of 49 bytes, bodies from
/// there on, 253 bytes in all.
const TWELVE: [(usize, usize); 12] = [
    (0x04, 2), // 49
    (0x0A, 1), // 57
    (0x13, 4), // 61
    (0x21, 3), // 77
    (0x2C, 4), // 89
    (0x37, 8), // 105
    (0x48, 1), // 137
    (0x5E, 2), // 141
    (0x6B, 5), // 149
    (0x91, 6), // 169
    (0xB7, 7), // 193
    (0xC9, 8), // 221
];

/// A good sheet of such registers: guest bits 3:0, host bits 7:4, reset bits 1:0.
fn sheet(registers: &[(usize, usize)]) -> Vec<u8> {
    let register = |&(at, length): &(usize, usize)| Register {
        at,
        default: vec![0x5A; length],
        guest: vec![0x0F; length],
        host: vec![0xF0; length],
        reset: vec![0x03; length],
    };
    let registers: Vec<Register> = registers.iter().map(register).collect();
    lay_out(&registers)
}

fn twelve() -> Vec<u8> {
    sheet(&TWELVE)
}

/// The longest sheet: entry 1 is at 00, entry 2 at 04, entry 64 at FC. Its
/// contents have 257 bytes, and a body has 16.
fn longest() -> Vec<u8> {
    let registers: Vec<(usize, usize)> = (0..64).map(|index| (4 * index, 4)).collect();
    sheet(&registers)
}

/// The bytes with others in some places.
fn with(mut bytes: Vec<u8>, changes: &[(usize, u8)]) -> Vec<u8> {
    for (place, byte) in changes {
        bytes[*place] = *byte;
    }
    bytes
}

/// The bytes cut to so many, or with zeros behind them up to so many.
fn of(mut bytes: Vec<u8>, length: usize) -> Vec<u8> {
    bytes.resize(length, 0);
    bytes
}

/// Where the entry of that number, from 1, has its offset.
const fn offset(entry: usize) -> usize {
    4 * entry - 3
}

/// Where it has its length.
const fn length(entry: usize) -> usize {
    4 * entry - 2
}

/// Where it has its body start, low byte first.
const fn start(entry: usize) -> usize {
    4 * entry - 1
}

/// Sheets with the number that refuses each and the sentence on it.
fn refused() -> Vec<(Vec<u8>, u32, &'static str)> {
    let mut all = whole_sheets();
    all.extend(entries());
    all.extend(bodies());
    all.extend(two_faults());
    all.extend(long_files());
    all
}

fn whole_sheets() -> Vec<(Vec<u8>, u32, &'static str)> {
    vec![
        (vec![], 12, "the sheet is empty"),
        (
            with(twelve(), &[(0, 0)]),
            13,
            "byte 0 says 0 entries, and a sheet has 1 to 64",
        ),
        (
            with(twelve(), &[(0, 65)]),
            13,
            "byte 0 says 65 entries, and a sheet has 1 to 64",
        ),
        (
            vec![255],
            13,
            "byte 0 says 255 entries, and a sheet has 1 to 64",
        ),
        (
            of(twelve(), 48),
            12,
            "the contents are cut short: the sheet has 48 bytes",
        ),
        (
            of(longest(), 256),
            12,
            "the contents are cut short: the sheet has 256 bytes",
        ),
        (
            of(twelve(), 49),
            12,
            "the sheet has 49 bytes, and its last body does not end there",
        ),
        (
            of(twelve(), 252),
            12,
            "the sheet has 252 bytes, and its last body does not end there",
        ),
        (
            of(twelve(), 254),
            12,
            "the sheet has 254 bytes, and its last body does not end there",
        ),
        (
            of(twelve(), 1281),
            12,
            "the sheet has 1281 bytes, and its last body does not end there",
        ),
        (
            of(longest(), 1280),
            12,
            "the sheet has 1280 bytes, and its last body does not end there",
        ),
    ]
}

fn entries() -> Vec<(Vec<u8>, u32, &'static str)> {
    vec![
        (
            with(twelve(), &[(length(6), 9)]),
            13,
            "entry 6 at 37: its length is 9, and a register has 1 to 8 bytes",
        ),
        (
            with(twelve(), &[(length(11), 0)]),
            13,
            "entry 11 at B7: its length is 0, and a register has 1 to 8 bytes",
        ),
        (
            with(longest(), &[(length(64), 255)]),
            13,
            "entry 64 at FC: its length is 255, and a register has 1 to 8 bytes",
        ),
        (
            with(twelve(), &[(offset(5), 0x20)]),
            13,
            "entry 5 at 20: its register starts before that of the entry before it ends",
        ),
        (
            with(twelve(), &[(offset(10), 0x6F)]),
            13,
            "entry 10 at 6F: its register starts before that of the entry before it ends",
        ),
        (
            with(longest(), &[(offset(33), 0x7F)]),
            13,
            "entry 33 at 7F: its register starts before that of the entry before it ends",
        ),
        (
            with(twelve(), &[(offset(12), 0xF9)]),
            13,
            "entry 12 at F9: its register passes byte FF",
        ),
        (
            with(twelve(), &[(offset(3), 0xFE)]),
            13,
            "entry 3 at FE: its register passes byte FF",
        ),
        (
            with(twelve(), &[(start(8), 0x02), (start(8) + 1, 0x03)]),
            13,
            "entry 8 at 5E: its body starts at byte 770, not where the contents or the body before it end",
        ),
        (
            with(twelve(), &[(start(9), 150)]),
            13,
            "entry 9 at 6B: its body starts at byte 150, not where the contents or the body before it end",
        ),
        (
            with(longest(), &[(start(47), 0xFF), (start(47) + 1, 0xFF)]),
            13,
            "entry 47 at B8: its body starts at byte 65535, not where the contents or the body before it end",
        ),
    ]
}

fn bodies() -> Vec<(Vec<u8>, u32, &'static str)> {
    vec![
        // Host masks: the third byte of entry 4's, the first of entry 11's.
        (
            with(twelve(), &[(85, 0xF8)]),
            14,
            "entry 4 at 21: its guest and host masks share a bit",
        ),
        (
            with(twelve(), &[(207, 0xF1)]),
            14,
            "entry 11 at B7: its guest and host masks share a bit",
        ),
        // Reset masks: the second byte of entry 9's, and the file's last byte.
        (
            with(twelve(), &[(165, 0x13)]),
            14,
            "entry 9 at 6B: its reset mask has a bit outside its guest mask",
        ),
        (
            with(longest(), &[(1280, 0x43)]),
            14,
            "entry 64 at FC: its reset mask has a bit outside its guest mask",
        ),
    ]
}

fn two_faults() -> Vec<(Vec<u8>, u32, &'static str)> {
    vec![
        (
            with(twelve(), &[(length(7), 0), (start(3), 62)]),
            13,
            "entry 3 at 13: its body starts at byte 62, not where the contents or the body before it end",
        ),
        (
            with(twelve(), &[(offset(6), 0x2D), (length(6), 10), (start(6), 1)]),
            13,
            "entry 6 at 2D: its length is 10, and a register has 1 to 8 bytes",
        ),
        (
            with(twelve(), &[(165, 0x13), (207, 0xF1)]),
            14,
            "entry 9 at 6B: its reset mask has a bit outside its guest mask",
        ),
        // Within a body the first byte that is wrong, and of both a shared bit:
        // entry 6's host mask starts at 121, its reset mask at 129.
        (
            with(twelve(), &[(124, 0xF8), (130, 0x43)]),
            14,
            "entry 6 at 37: its reset mask has a bit outside its guest mask",
        ),
        (
            with(twelve(), &[(124, 0xF8), (132, 0x43)]),
            14,
            "entry 6 at 37: its guest and host masks share a bit",
        ),
        (
            of(with(twelve(), &[(85, 0xF8)]), 251),
            12,
            "the sheet has 251 bytes, and its last body does not end there",
        ),
    ]
}

fn long_files() -> Vec<(Vec<u8>, u32, &'static str)> {
    vec![
        (
            of(longest(), 1282),
            12,
            "the file is longer than the longest sheet, 1281 bytes",
        ),
        (
            of(twelve(), 70_000),
            12,
            "the file is longer than the longest sheet, 1281 bytes",
        ),
        (
            vec![0; 1282],
            13,
            "byte 0 says 0 entries, and a sheet has 1 to 64",
        ),
        (
            vec![77; 2000],
            13,
            "byte 0 says 77 entries, and a sheet has 1 to 64",
        ),
        (
            of(with(twelve(), &[(length(10), 16)]), 5_000),
            13,
            "entry 10 at 91: its length is 16, and a register has 1 to 8 bytes",
        ),
        (
            of(with(longest(), &[(offset(64), 0xFD)]), 1282),
            13,
            "entry 64 at FD: its register passes byte FF",
        ),
    ]
}

// ---- the programs

/// What has agreed so far.
#[derive(Default)]
struct Agreed {
    sentences: usize,
}

impl fmt::Display for Agreed {
    fn fmt(&self, f: &mut fmt::Formatter<'_>) -> fmt::Result {
        write!(f, "{} sentences agreed", self.sentences)
    }
}

/// What a program says to a session of one line: standard output and error.
fn said(program: &str, arguments: &[&Path]) -> Result<(String, String), Trouble> {
    let mut command = Command::new(program);
    command.args(arguments).stderr(Stdio::piped());
    let output = child::run(&mut command, b"P\n", usize::MAX)?;
    if output.status.code().is_none() {
        let report = format!("the end of {program}: {}", output.status);
        return Err(Trouble::Difference(report));
    }
    let text = |bytes: &[u8]| String::from_utf8_lossy(bytes).into_owned();
    Ok((text(&output.stdout), text(&output.stderr)))
}

/// Holds what a program says to what is wanted on both of its outputs.
fn check(program: &str, arguments: &[&Path], wanted: (&str, &str)) -> Result<(), Trouble> {
    let said = said(program, arguments)?;
    if (said.0.as_str(), said.1.as_str()) == wanted {
        return Ok(());
    }
    Err(Trouble::Difference(format!(
        "{program}: output and standard error\n  wanted: {wanted:?}\n  said:   {said:?}"
    )))
}

/// Refused sheets, and a good one to begin with.
fn check_sheets(program: &str, folder: &Folder, agreed: &mut Agreed) -> Result<(), Trouble> {
    let file = folder.file("made.sheet");
    for good in [twelve(), longest()] {
        fs::write(&file, good)?;
        let (output, complaint) = said(program, &[&file])?;
        if output.starts_with("NO") || !complaint.is_empty() {
            let report = format!("{program}, a good sheet: {output:?}, {complaint:?}");
            return Err(Trouble::Difference(report));
        }
    }
    for (bytes, number, sentence) in refused() {
        fs::write(&file, bytes)?;
        let wanted = (format!("NO {number}\n"), format!("{sentence}\n"));
        check(program, &[&file], (&wanted.0, &wanted.1))?;
        agreed.sentences += 1;
    }
    Ok(())
}

/// Calls that name no sheet that can be read: no line on standard output.
fn check_calls(program: &str, folder: &Folder, agreed: &mut Agreed) -> Result<(), Trouble> {
    let good = folder.file("good.sheet");
    fs::write(&good, twelve())?;
    let missing = folder.file("missing.sheet");
    let long = folder.file(&"x".repeat(5_000));
    let calls: [(&[&Path], String); 5] = [
        (&[], ONE_WANTED.to_string()),
        (&[&good, &good], ONE_WANTED.to_string()),
        (
            &[&missing],
            format!("{}: No such file or directory", missing.display()),
        ),
        (
            &[folder.path()],
            format!("{}: Is a directory", folder.path().display()),
        ),
        (&[&long], "the sheet's name: File name too long".to_string()),
    ];
    for (arguments, sentence) in calls {
        check(program, arguments, ("", &format!("{sentence}\n")))?;
        agreed.sentences += 1;
    }
    Ok(())
}

fn check_all(programs: &[String], agreed: &mut Agreed) -> Result<(), Trouble> {
    let folder = Folder::new("sentences")?;
    for program in programs {
        check_sheets(program, &folder, agreed)?;
        check_calls(program, &folder, agreed)?;
    }
    Ok(())
}

fn main() -> ExitCode {
    let programs: Vec<String> = std::env::args().skip(1).collect();
    if programs.len() != 2 {
        eprintln!("{USAGE}");
        return ExitCode::from(2);
    }
    let mut agreed = Agreed::default();
    let result = check_all(&programs, &mut agreed);
    end("sentences", &agreed, result)
}
