//! The comparison of programs that take register sheets finds their faults.

mod common {
    pub mod lanes;
}

use std::fs;
use std::io::Write;
use std::os::unix::fs::PermissionsExt;
use std::path::PathBuf;
use std::process::{Command, Output, Stdio};

use common::lanes::UNDRIVEN;
use second::difference::lines;
use second::line::{parse, Answer, Command as Spoken, Mode};
use second::plain_device::{self, PlainDevice};
use second::player::Listener;
use second::sheet::{read, Register, Sheet};
use second::sheet_comparison::{cases, check, played, shown, Case, Said, Tally};

const SECOND: &str = env!("CARGO_BIN_EXE_second");
const COMPARE_SHEETS: &str = env!("CARGO_BIN_EXE_compare-sheets");

/// What is to be said of a case.
fn ours(case: &Case) -> (Said, Said) {
    (played(&case.sheet, &case.session), shown(&case.sheet))
}

/// The first difference for programs that say this, if there is one.
fn found(said: impl Fn(&Case) -> (Said, Said)) -> Option<String> {
    (0..4).flat_map(|seed| cases(seed, 1_000)).find_map(|case| {
        let (played, shown) = said(&case);
        check(&case, &played, &shown).err()
    })
}

#[test]
fn we_agree_with_ourselves() {
    assert_eq!(found(ours), None);
}

#[test]
fn a_report_has_seed_sheet_line_and_answers() {
    let report = found(|case| {
        let (mut played, shown) = ours(case);
        if case.seed == 2 && played.output.starts_with(b"OK ") {
            played.output[3] = b'x';
        }
        (played, shown)
    });
    let report = report.unwrap();
    for part in [
        "seed 2, sheet 'good",
        "player, line 1: \"R 00 F\\n\"",
        "\"OK x",
        "the sheet: ",
    ] {
        assert!(report.contains(part), "{part}: {report}");
    }
}

// ---- faults of the device

/// What a device says with other registers than those of its sheet, or to
/// other lines than those of its session.
fn with_device(
    case: &Case,
    registers: impl Fn(&mut Register),
    line: impl Fn(&[u8]) -> Vec<u8>,
) -> (Said, Said) {
    let (mut played, shown) = ours(case);
    if let Ok(mut sheet) = read(&case.sheet) {
        sheet.registers.iter_mut().for_each(registers);
        let session: Vec<u8> = lines(&case.session).flat_map(line).collect();
        played.output = plain_device::answers(&sheet, &session);
    }
    (played, shown)
}

/// Whether other registers are found.
fn finds_registers(registers: impl Fn(&mut Register)) -> bool {
    found(|case| with_device(case, &registers, <[u8]>::to_vec)).is_some()
}

/// Whether other lines are found.
fn finds_lines(line: impl Fn(&[u8]) -> Vec<u8>) -> bool {
    found(|case| with_device(case, |_| {}, &line)).is_some()
}

/// The mask of all bits of two masks.
fn both(one: &[u8], two: &[u8]) -> Vec<u8> {
    one.iter().zip(two).map(|(one, two)| one | two).collect()
}

#[test]
fn other_registers_are_found() {
    assert!(!finds_registers(|_| {}));
    assert!(finds_registers(|it| std::mem::swap(
        &mut it.guest,
        &mut it.host
    )));
    assert!(finds_registers(|it| it.reset = both(&it.reset, &it.host)));
    assert!(finds_registers(|it| it.reset = it.guest.clone()));
    assert!(finds_registers(|it| it.reset.fill(0)));
    assert!(finds_registers(|it| it.default.fill(0)));
    assert!(finds_registers(|it| it.guest = both(&it.guest, &it.host)));
    assert!(finds_registers(|it| it.host = both(&it.guest, &it.host)));
    assert!(finds_registers(|it| it.default.reverse()));
    // One bit of the last byte that there is.
    for part in 0..4 {
        assert!(finds_registers(|it| {
            let bytes = [&mut it.default, &mut it.guest, &mut it.host, &mut it.reset];
            if it.at + bytes[0].len() == 256 {
                *bytes.into_iter().nth(part).unwrap().last_mut().unwrap() ^= 0x80;
            }
        }));
    }
}

/// The line with another byte in that place, if it is a command of that letter.
fn put(line: &[u8], letter: u8, place: usize, byte: u8) -> Vec<u8> {
    let mut line = line.to_vec();
    if line.first() == Some(&letter) && line.len() > place {
        line[place] = byte;
    }
    line
}

/// The line, or another in its place.
fn instead(line: &[u8], of: &[u8], other: &[u8]) -> Vec<u8> {
    if line == of {
        other.to_vec()
    } else {
        line.to_vec()
    }
}

/// The line, or a platform reset in the place of one of the window's.
fn window_line_as_reset(line: &[u8]) -> Vec<u8> {
    let spoken = line.strip_suffix(b"\n").unwrap_or(line);
    match parse(spoken, Mode::Console) {
        Some(_) if b"VUCFTY".contains(&line[0]) => b"P\n".to_vec(),
        _ => line.to_vec(),
    }
}

#[test]
fn other_lines_are_found() {
    assert!(finds_lines(|line| put(line, b'W', 5, b'F')));
    assert!(finds_lines(|line| put(line, b'R', 5, b'F')));
    assert!(finds_lines(|line| put(line, b'H', 5, b'F')));
    assert!(finds_lines(|line| put(line, b'W', 3, b'0')));
    assert!(finds_lines(|line| instead(line, b"Z\n", b"P\n")));
    assert!(finds_lines(|line| instead(line, b"P\n", b"Z\n")));
    assert!(finds_lines(|line| instead(line, b"Z\n", b"\n")));
    assert!(finds_lines(|line| instead(line, b"Z \n", b"Z\n")));
    assert!(finds_lines(|line| instead(line, b"E\n", b"Z\n")));
    assert!(finds_lines(|line| instead(line, b"E\n", b"R 00 0\n")));
    assert!(finds_lines(window_line_as_reset));
    assert!(finds_lines(|line| line.to_ascii_uppercase()));
    assert!(finds_lines(|line| line
        .strip_suffix(b"\n")
        .unwrap_or(b"")
        .to_vec()));
}

#[test]
fn sessions_read_by_every_lanes() {
    for seed in 0..4 {
        let case = cases(seed, 10_000).next().unwrap();
        let mut reads = [0; 16];
        for line in lines(&case.session) {
            let line = line.strip_suffix(b"\n").unwrap_or(line);
            match parse(line, Mode::Sheet) {
                Some(Spoken::Read { offset, lanes }) if offset % 4 == 0 => {
                    reads[lanes as usize] += 1
                }
                _ => {}
            }
        }
        assert!(reads.iter().all(|count| *count >= 25), "{case}: {reads:?}");
        assert!(reads[0] >= 120, "{case}: {reads:?}");
    }
}

/// What a device says that reads something else, by the lanes and the value.
fn with_reads(case: &Case, other: impl Fn(u32, u32) -> u32) -> (Said, Said) {
    let (mut played, shown) = ours(case);
    if let Ok(sheet) = read(&case.sheet) {
        let mut device = PlainDevice::fresh(&sheet);
        let said = |line: &[u8]| {
            let line = line.strip_suffix(b"\n").unwrap_or(line);
            let said = match (parse(line, Mode::Sheet), device.answer(line)) {
                (Some(Spoken::Read { lanes, .. }), Answer::Value(value)) => {
                    Answer::Value(other(lanes, value))
                }
                (_, said) => said,
            };
            format!("{said}\n").into_bytes()
        };
        played.output = lines(&case.session).flat_map(said).collect();
    }
    (played, shown)
}

/// The value with zeros in the lanes that aren't enabled.
fn undriven_as_zero(lanes: u32, value: u32) -> u32 {
    value & !UNDRIVEN[lanes as usize]
}

#[test]
fn undriven_lanes_as_zero_are_found_on_every_sheet() {
    assert_eq!(found(|case| with_reads(case, |_, value| value)), None);
    assert!(found(|case| with_reads(case, undriven_as_zero)).is_some());
    // The fault in one lanes' reads alone, lanes 0 among them.
    let good = |case: &Case| read(&case.sheet).is_ok();
    for case in cases(0, 1_000).filter(good) {
        for such in 0..15 {
            let (played, shown) = with_reads(&case, |lanes, value| {
                if lanes == such {
                    undriven_as_zero(lanes, value)
                } else {
                    value
                }
            });
            let found = check(&case, &played, &shown).is_err();
            assert!(found, "{case}, lanes {such:X}");
        }
    }
}

// ---- faults of the reader

/// A test of a reader: its number, if it refuses.
type Test = (&'static str, fn(&[u8]) -> Option<u32>);

/// A byte, or 0 where there is none.
fn byte(bytes: &[u8], at: usize) -> usize {
    bytes.get(at).map_or(0, |byte| usize::from(*byte))
}

/// An entry, and where the entries before it say that its register and its
/// body may start.
struct Entry {
    at: usize,
    length: usize,
    start: usize,
    free: usize,
    due: usize,
}

fn entry(bytes: &[u8], index: usize) -> Entry {
    let field = |index: usize, field: usize| byte(bytes, 1 + 4 * index + field);
    let ends = (0..index).map(|before| field(before, 0) + field(before, 1));
    let bodies = (0..index).map(|before| 4 * field(before, 1));
    Entry {
        at: field(index, 0),
        length: field(index, 1),
        start: field(index, 2) + 256 * field(index, 3),
        free: ends.max().unwrap_or(0),
        due: 1 + 4 * byte(bytes, 0) + bodies.sum::<usize>(),
    }
}

/// 13 if some entry is bad.
fn entries(bytes: &[u8], bad: fn(&Entry) -> bool) -> Option<u32> {
    let bad = (0..byte(bytes, 0)).any(|index| bad(&entry(bytes, index)));
    bad.then_some(13)
}

/// 14 if guest, host and reset masks of some byte are bad.
fn masks(bytes: &[u8], bad: fn([usize; 3]) -> bool) -> Option<u32> {
    let bad_body = |index| {
        let Entry { length, due, .. } = entry(bytes, index);
        let part = |part: usize, place: usize| byte(bytes, due + part * length + place);
        (0..length).any(|place| bad([1, 2, 3].map(|mask| part(mask, place))))
    };
    (0..byte(bytes, 0)).any(bad_body).then_some(14)
}

/// The tests in the paper's order.
const TESTS: [Test; 12] = [
    ("empty", |bytes| bytes.is_empty().then_some(12)),
    ("no entry", |bytes| (byte(bytes, 0) == 0).then_some(13)),
    ("too many entries", |bytes| {
        (byte(bytes, 0) > 64).then_some(13)
    }),
    ("contents", |bytes| {
        (bytes.len() < 1 + 4 * byte(bytes, 0)).then_some(12)
    }),
    ("length 0", |bytes| entries(bytes, |it| it.length == 0)),
    ("length above 8", |bytes| entries(bytes, |it| it.length > 8)),
    ("order", |bytes| entries(bytes, |it| it.at < it.free)),
    ("end", |bytes| entries(bytes, |it| it.at + it.length > 256)),
    ("start", |bytes| entries(bytes, |it| it.start != it.due)),
    ("total", |bytes| {
        (bytes.len() != entry(bytes, byte(bytes, 0)).due).then_some(12)
    }),
    ("shared", |bytes| {
        masks(bytes, |[guest, host, _]| guest & host != 0)
    }),
    ("reset", |bytes| {
        masks(bytes, |[guest, _, reset]| reset & !guest != 0)
    }),
];

/// Whether a reader is found that does these tests in turn.
fn finds_tests(tests: &[Test]) -> bool {
    let said = |case: &Case| {
        let (mut played, mut shown) = ours(case);
        let output = match tests.iter().find_map(|(_, test)| test(&case.sheet)) {
            Some(number) => format!("NO {number}\n").into_bytes(),
            None if read(&case.sheet).is_ok() => return (played, shown),
            None => Vec::new(),
        };
        played.output = output.clone();
        shown.output = output;
        (played, shown)
    };
    found(said).is_some()
}

#[test]
fn each_test_left_out_is_found() {
    assert!(!finds_tests(&TESTS));
    for index in 0..TESTS.len() {
        let mut tests = TESTS.to_vec();
        let (name, _) = tests.remove(index);
        assert!(finds_tests(&tests), "{name}");
    }
}

#[test]
fn tests_in_another_order_are_found() {
    let place = |name| TESTS.iter().position(|test| test.0 == name).unwrap();
    for (name, before) in [
        ("contents", "too many entries"),
        ("length 0", "contents"),
        ("order", "contents"),
        ("start", "contents"),
        ("total", "length 0"),
        ("total", "start"),
        ("shared", "total"),
        ("reset", "total"),
        ("shared", "length 0"),
    ] {
        let mut tests = TESTS.to_vec();
        let test = tests.remove(place(name));
        tests.insert(place(before), test);
        assert!(finds_tests(&tests), "{name} before {before}");
    }
}

#[test]
fn long_files_out_of_order_are_found() {
    let before = ["empty", "no entry", "too many entries", "contents"];
    let entries = ["length 0", "length above 8", "order", "end", "start"];
    for name in before.iter().chain(&entries) {
        let mut tests = TESTS.to_vec();
        let place = tests.iter().position(|test| test.0 == *name).unwrap();
        tests.insert(place, ("long", |bytes| (bytes.len() > 1281).then_some(12)));
        assert!(finds_tests(&tests), "long before {name}");
    }
    // Behind the entries it is the total length's test.
    let mut tests = TESTS.to_vec();
    let place = tests.iter().position(|test| test.0 == "total").unwrap();
    tests.insert(place, ("long", |bytes| (bytes.len() > 1281).then_some(12)));
    assert!(!finds_tests(&tests));
}

#[test]
fn tests_off_by_one_are_found() {
    let others: [Test; 8] = [
        ("total", |bytes| {
            let due = entry(bytes, byte(bytes, 0)).due;
            (bytes.len() % 0x1_0000 != due).then_some(12)
        }),
        ("too many entries", |bytes| {
            (byte(bytes, 0) > 63).then_some(13)
        }),
        ("too many entries", |bytes| {
            (byte(bytes, 0) > 65).then_some(13)
        }),
        ("length above 8", |bytes| entries(bytes, |it| it.length > 7)),
        ("length above 8", |bytes| entries(bytes, |it| it.length > 9)),
        ("order", |bytes| entries(bytes, |it| it.at + 1 < it.free)),
        ("end", |bytes| entries(bytes, |it| it.at + it.length > 257)),
        ("end", |bytes| entries(bytes, |it| it.at + it.length > 255)),
    ];
    for other in others {
        let mut tests = TESTS;
        let place = tests.iter().position(|test| test.0 == other.0).unwrap();
        tests[place] = other;
        assert!(finds_tests(&tests), "{}", other.0);
    }
}

#[test]
fn other_numbers_are_found() {
    for (number, other) in [
        ("12", "13"),
        ("13", "12"),
        ("14", "13"),
        ("13", "14"),
        ("14", "1"),
    ] {
        let said = |case: &Case| {
            let (mut played, mut shown) = ours(case);
            for said in [&mut played, &mut shown] {
                if said.output == format!("NO {number}\n").as_bytes() {
                    said.output = format!("NO {other}\n").into_bytes();
                }
            }
            (played, shown)
        };
        assert!(found(said).is_some(), "{other} for {number}");
    }
}

// ---- faults of what is said

/// Whether another text on standard error is found, in either program.
fn finds_complaint(other: impl Fn(&str) -> String) -> bool {
    let change = |said: Said| {
        let complaint = String::from_utf8(said.complaint).unwrap();
        Said {
            output: said.output,
            complaint: other(&complaint).into_bytes(),
        }
    };
    let in_player = |case: &Case| (change(ours(case).0), ours(case).1);
    let in_show = |case: &Case| (ours(case).0, change(ours(case).1));
    let (in_player, in_show) = (found(in_player).is_some(), found(in_show).is_some());
    assert_eq!(in_player, in_show);
    in_player
}

#[test]
fn other_complaints_are_found() {
    assert!(!finds_complaint(str::to_string));
    assert!(!finds_complaint(|text| text.replace("entry", "in entry")));
    assert!(finds_complaint(|_| String::new()));
    assert!(finds_complaint(|_| "a warning\n".to_string()));
    assert!(finds_complaint(|text| text.replace('\n', "")));
    assert!(finds_complaint(|text| text.replace('\n', "\n\n")));
    assert!(finds_complaint(|text| text.replace('\n', " \n and more\n")));
    assert!(finds_complaint(|text| text.replace("entry ", "Entry ")));
    assert!(finds_complaint(|text| text.replace("entry ", "entry 1")));
    assert!(finds_complaint(|text| text.replace("entry 2", "entry 3")));
    assert!(finds_complaint(|text| text.replace(char::is_numeric, "1")));
    assert!(finds_complaint(|text| if text.is_empty() {
        text.into()
    } else {
        "\n".into()
    }));
}

/// Whether another table is found.
fn finds_table(other: impl Fn(&Sheet) -> String) -> bool {
    let said = |case: &Case| {
        let (played, mut shown) = ours(case);
        if let Ok(sheet) = read(&case.sheet) {
            shown.output = other(&sheet).into_bytes();
        }
        (played, shown)
    };
    found(said).is_some()
}

#[test]
fn other_tables_are_found() {
    let changed = |sheet: &Sheet, change: fn(&mut Register)| {
        let mut sheet = sheet.clone();
        sheet.registers.iter_mut().for_each(change);
        sheet.table()
    };
    assert!(!finds_table(Sheet::table));
    assert!(finds_table(|sheet| sheet.table().to_lowercase()));
    assert!(finds_table(|sheet| sheet
        .table()
        .replace("At  Bytes", "At Bytes ")));
    assert!(finds_table(|sheet| sheet.table().replace(" 0", "  ")));
    assert!(finds_table(|sheet| changed(sheet, |it| it.reset.reverse())));
    assert!(finds_table(
        |sheet| changed(sheet, |it| it.host = it.guest.clone())
    ));
    assert!(finds_table(|sheet| {
        let registers = sheet.registers.iter().take(63).cloned().collect();
        Sheet { registers }.table()
    }));
}

#[test]
fn a_tally_tells_what_is_missing() {
    let mut tally = Tally::default();
    let all = cases(0, 100).count();
    assert_eq!(
        tally.missing().len(),
        all + "good 12 13 14".split(' ').count()
    );
    for case in cases(0, 100).skip(1) {
        tally.add(&case);
    }
    assert_eq!(tally.missing(), ["good, of any shape"]);
    cases(1, 100).take(1).for_each(|case| tally.add(&case));
    assert!(tally.missing().is_empty());
    let said = tally.to_string();
    assert!(
        said.contains(&format!("on {all} sheets of {all} kinds")),
        "{said}"
    );
}

// ---- the programs

/// A file of our own with that text.
fn file(name: &str, text: &[u8]) -> PathBuf {
    let path = PathBuf::from(env!("CARGO_TARGET_TMPDIR")).join(name);
    fs::write(&path, text).unwrap();
    path
}

/// A program in the shell's language.
fn script(name: &str, text: &str) -> String {
    let path = file(name, format!("#!/bin/sh\n{text}\n").as_bytes());
    fs::set_permissions(&path, fs::Permissions::from_mode(0o755)).unwrap();
    path.to_str().unwrap().to_string()
}

/// Runs a program on a short input.
fn run(program: &str, arguments: &[&str], input: &[u8]) -> Output {
    let mut child = Command::new(program)
        .args(arguments)
        .stdin(Stdio::piped())
        .stdout(Stdio::piped())
        .stderr(Stdio::piped())
        .spawn()
        .unwrap();
    // A program that refuses its sheet reads nothing.
    let _ = child.stdin.take().unwrap().write_all(input);
    child.wait_with_output().unwrap()
}

#[test]
fn second_says_what_is_to_be_said() {
    for (index, case) in cases(5, 300).enumerate() {
        let path = file(&format!("said-{index}.sheet"), &case.sheet);
        let name = path.to_str().unwrap();
        let (played, shown) = ours(&case);
        for (said, task, input) in [
            (played, "sheet", &case.session[..]),
            (shown, "show", &b""[..]),
        ] {
            let output = run(SECOND, &[task, name], input);
            assert_eq!(output.stdout, said.output, "{case}");
            assert_eq!(
                output.stderr.is_empty(),
                said.complaint.is_empty(),
                "{case}"
            );
            assert!(output.status.success());
        }
        fs::remove_file(path).unwrap();
    }
}

#[test]
fn second_says_nothing_of_a_sheet_it_cannot_read() {
    for arguments in [
        &["sheet"][..],
        &["show"],
        &["sheet", "/nowhere/at/all"],
        &["show", "/nowhere/at/all"],
        &["sheet", "/"],
        &["show", "/"],
        &["sheet", "/dev/null", "/dev/null"],
        &["table", "/dev/null"],
    ] {
        let output = run(SECOND, arguments, b"P\n");
        assert!(!output.status.success(), "{arguments:?}");
        assert!(output.stdout.is_empty() && !output.stderr.is_empty());
    }
    for task in ["sheet", "show"] {
        assert_eq!(run(SECOND, &[task, "/dev/zero"], b"P\n").stdout, b"NO 13\n");
        assert_eq!(run(SECOND, &[task, "/dev/null"], b"P\n").stdout, b"NO 12\n");
    }
}

#[test]
fn compare_sheets_runs_programs() {
    let player = script("player", &format!("exec {SECOND} sheet \"$1\""));
    let show = script("show", &format!("exec {SECOND} show \"$1\""));
    let output = run(
        COMPARE_SHEETS,
        &["--seeds", "3..4", "--lines", "500", &player, &show],
        b"",
    );
    let said = String::from_utf8(output.stdout).unwrap();
    assert!(
        output.status.success() && said.contains("lines agreed on"),
        "{said}"
    );
    let silent = script("silent", &format!("exec {SECOND} sheet \"$1\" 2>/dev/null"));
    let killed = script("killed", &format!("{SECOND} show \"$1\"; kill -9 $$"));
    for (player, show) in [
        (&show, &show),
        (&player, &player),
        (&silent, &show),
        (&player, &killed),
        (&"/bin/true".to_string(), &show),
        (&player, &"/bin/cat".to_string()),
    ] {
        let output = run(
            COMPARE_SHEETS,
            &["--seeds", "3..4", "--lines", "100", player, show],
            b"",
        );
        let said = String::from_utf8(output.stdout).unwrap();
        assert_eq!(output.status.code(), Some(1), "{said}");
        assert!(said.contains("DIFFERENCE"), "{said}");
    }
}

#[test]
fn compare_sheets_refuses_wrong_calls() {
    for arguments in [
        &[][..],
        &[SECOND],
        &[SECOND, SECOND, SECOND],
        &["--seeds", "5..5", SECOND, SECOND],
        &["--lines", "some", SECOND, SECOND],
        &["--other", SECOND, SECOND],
        &["/nowhere/at/all", SECOND],
    ] {
        let output = run(COMPARE_SHEETS, arguments, b"");
        assert_eq!(output.status.code(), Some(2), "{arguments:?}");
    }
}
