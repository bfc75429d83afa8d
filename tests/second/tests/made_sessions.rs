//! The made sessions: the same each time, and with everything in them.

mod common {
    pub mod lanes;
    pub mod registers;
}

use std::collections::BTreeMap;

use common::lanes::UNDRIVEN;
use common::registers::*;
use second::difference::{difference, lines};
use second::line::Mode::{self, Console, Player};
use second::line::{answer, parse, Answer, Command};
use second::player::answers;
use second::refusal::Refusal;
use second::session::text;
use second::twin::{Claim, Record, Twin};

#[test]
fn the_same_seed_makes_the_same_session() {
    for mode in [Player, Console] {
        assert_eq!(text(7, 500, mode), text(7, 500, mode));
        assert_ne!(text(7, 500, mode), text(8, 500, mode));
    }
}

#[test]
fn as_many_lines_as_asked_for() {
    for mode in [Player, Console] {
        for seed in 0..60 {
            let count = seed * 3;
            let session = text(seed, count, mode);
            assert_eq!(lines(&session).count() as u64, count);
            assert_eq!(lines(&answers(&session, mode)).count() as u64, count);
        }
    }
}

/// All answers of some sessions, one after the other.
fn all_answers(mode: Mode) -> String {
    let said = (0..10)
        .flat_map(|seed| answers(&text(seed, 4_000, mode), mode))
        .collect();
    String::from_utf8(said).unwrap()
}

/// How many answers start in that way.
fn count(said: &str, start: &str) -> usize {
    said.lines().filter(|line| line.starts_with(start)).count()
}

#[test]
fn every_answer_of_the_player_happens() {
    let said = all_answers(Player);
    for start in ["OK", "OK ", "NO 5", "NO 7", "NO 9"] {
        assert!(
            count(&said, start) > 300,
            "{start}: {}",
            count(&said, start)
        );
    }
    for start in [
        "NO 2", "NO 3", "NO 4", "NO 8", "NO 10", "NO 11", "NO 16", "OK I", "OK T", "OK N",
    ] {
        assert_eq!(count(&said, start), 0, "{start}");
    }
}

#[test]
fn every_answer_of_the_console_happens() {
    let said = all_answers(Console);
    for start in [
        "OK",
        "OK 0",
        "NO 2",
        "NO 3",
        "NO 4",
        "NO 5",
        "NO 7",
        "NO 8",
        "NO 9",
        "NO 16",
        "OK TRANSLATION",
        "OK APERTURE",
        "OK IO 000000",
        "OK NONE",
        "OK IO ",
        "OK MEM32 ",
        "OK MEM64 ",
        "OK FOUND 90",
        "OK FOUND D0",
        "OK FOUND A4",
        "OK ABSENT 03",
        "OK ABSENT 02",
        "NO 11 30",
    ] {
        assert!(count(&said, start) > 30, "{start}: {}", count(&said, start));
    }
    assert!(count(&said, "OK FOUND FC 01") > 5);
}

#[test]
fn every_kind_of_odd_line_happens() {
    let session: Vec<u8> = (0..30)
        .flat_map(|seed| text(seed, 4_000, Console))
        .collect();
    let some = |such: &dyn Fn(&[u8]) -> bool| lines(&session).filter(|line| such(line)).count();
    assert!(some(&|line| line == b"\n") > 10);
    assert!(some(&|line| line.ends_with(b"\r\n")) > 10);
    assert!(some(&|line| line.ends_with(b" \n")) > 10);
    assert!(some(&|line| line.starts_with(b" ")) > 10);
    assert!(some(&|line| line.windows(2).any(|pair| pair == b"  ")) > 10);
    assert!(some(&|line| line.contains(&b'\t')) > 10);
    assert!(some(&|line| line.contains(&0)) > 10);
    assert!(some(&|line| line.iter().any(|byte| *byte > 0x7F)) > 10);
    assert!(some(&|line| line.iter().any(u8::is_ascii_lowercase)) > 10);
    assert!(some(&|line| line.len() > 10_000) > 3);
    assert!(some(&|line| line == b"P\n") > 300);
    assert!(some(&|line| line == b"E\n") > 300);
    for near in ["E \n", " E\n", "e\n", "EE\n", "E 00\n"] {
        assert!(some(&|line| line == near.as_bytes()) > 10, "{near:?}");
    }
    for near in [
        "U 0810C F\n",
        "C F\n",
        "F 77FE\n",
        "T 1\n",
        "Y 1080C0 01 01\n",
    ] {
        assert!(some(&|line| line == near.as_bytes()) > 5, "{near:?}");
    }
}

/// The twin with that busy byte.
fn with_busy(twin: &Twin, busy: u8) -> Twin {
    Twin::of_record(&Record {
        busy,
        ..twin.record()
    })
}

/// What the bits hold when a function reset has come and gone.
fn bytes_once_reset(twin: &Twin) -> [u8; 256] {
    let mut twin = with_busy(twin, 1);
    twin.end_signal();
    twin.record().bytes
}

/// A line's command, what it does, and what it would do on a twin that isn't busy.
struct Event {
    command: Option<Command>,
    before: Twin,
    said: Answer,
    after: Twin,
    otherwise_said: Answer,
    otherwise: Twin,
}

impl Event {
    /// Carries out a line on the twin.
    fn of(twin: &mut Twin, line: &[u8], mode: Mode) -> Event {
        let before = twin.clone();
        let mut otherwise = with_busy(&before, 0);
        Event {
            command: parse(line, mode),
            before,
            said: answer(twin, line, mode),
            after: twin.clone(),
            otherwise_said: answer(&mut otherwise, line, mode),
            otherwise,
        }
    }

    /// What it counts as.
    fn names(&self) -> Vec<&'static str> {
        [self.phase_names(), self.lane_names()].concat()
    }

    /// What it counts as, if it is an accepted read of less than a dword.
    fn lane_names(&self) -> Vec<&'static str> {
        use Command::{PortRead, Read};
        if !matches!(self.said, Answer::Value(_)) {
            return vec![];
        }
        match (self.before.is_busy(), self.command) {
            (false, Some(Read { lanes: 0, .. })) => vec!["read, no lanes"],
            (true, Some(Read { lanes: 0, .. })) => vec!["read, no lanes, busy"],
            (false, Some(Read { offset, lanes })) if lanes < 15 => {
                if self.has_changed(offset) {
                    vec!["read, some lanes", "read, some lanes, changed"]
                } else {
                    vec!["read, some lanes"]
                }
            }
            (true, Some(Read { lanes, .. })) if lanes < 15 => vec!["read, some lanes, busy"],
            (false, Some(PortRead { width: 1 | 2, .. })) => vec!["narrow port read"],
            (true, Some(PortRead { width: 1 | 2, .. })) => vec!["narrow port read, busy"],
            _ => vec![],
        }
    }

    /// Whether a dword held something else than its default before the line.
    fn has_changed(&self, offset: u32) -> bool {
        let bytes = offset as usize..offset as usize + 4;
        self.before.record().bytes[bytes.clone()] != Twin::fresh().record().bytes[bytes]
    }

    /// What it counts as, if it has to do with being busy.
    fn phase_names(&self) -> Vec<&'static str> {
        match (self.before.is_busy(), self.command) {
            (_, Some(Command::End)) => self.end_names(),
            (true, command) => [vec!["busy line"], self.busy_names(command)].concat(),
            (false, Some(Command::PortWrite { .. })) if self.after.is_busy() => {
                vec!["start", "start by ports"]
            }
            (false, _) if self.after.is_busy() => vec!["start"],
            (false, _) => vec![],
        }
    }

    fn end_names(&self) -> Vec<&'static str> {
        let resets_bits = bytes_once_reset(&self.before) != self.before.record().bytes;
        match (self.before.is_busy(), resets_bits) {
            (true, true) => vec!["end", "end, bits reset"],
            (true, false) => vec!["end"],
            (false, true) => vec!["end, not busy", "end, not busy, bits kept"],
            (false, false) => vec!["end, not busy"],
        }
    }

    fn busy_names(&self, command: Option<Command>) -> Vec<&'static str> {
        use Command::*;
        let changed = self.before != self.after;
        match (command, self.said) {
            (None, _) => vec!["no form"],
            (_, Answer::Refused(_)) => vec!["refused"],
            (Some(PortWrite { port: 0xCF8, .. }), _) => vec!["latch write"],
            (Some(PortRead { port: 0xCF8, .. }), _) => vec!["latch read"],
            (Some(Write { .. }), _) => self.dropped_names("dropped"),
            (Some(PortWrite { .. }), _) => self.dropped_names("dropped by ports"),
            (Some(Read { .. }), _) => vec!["read"],
            (Some(PortRead { .. }), _) => vec!["read by ports"],
            (Some(Host { .. }), _) if changed => vec!["host update"],
            (Some(PlatformReset), _) => vec!["platform reset"],
            (Some(Walk { .. }), _) => vec!["walk"],
            (_, Answer::Claim(_)) if self.otherwise_said != self.said => vec!["claim"],
            _ => vec![],
        }
    }

    /// A dropped write, and what it would have done.
    fn dropped_names(&self, name: &'static str) -> Vec<&'static str> {
        let closes = self.before.record().closed != self.otherwise.record().closed;
        let lasts = bytes_once_reset(&self.before) != bytes_once_reset(&self.otherwise);
        [
            (true, name),
            (closes, "dropped, would close"),
            (lasts, "dropped, would last"),
            (self.otherwise.is_busy(), "dropped, would start"),
        ]
        .into_iter()
        .filter(|(so, _)| *so)
        .map(|(_, name)| name)
        .collect()
    }
}

/// Goes through what the lines of a made session do.
fn for_each_event(seed: u64, count: u64, mode: Mode, mut see: impl FnMut(Event)) {
    let mut twin = Twin::fresh();
    for line in lines(&text(seed, count, mode)) {
        let line = line.strip_suffix(b"\n").unwrap_or(line);
        see(Event::of(&mut twin, line, mode));
    }
}

/// How often what happens in some sessions of together 40,000 lines.
fn tally(mode: Mode) -> BTreeMap<&'static str, usize> {
    let mut tally = BTreeMap::new();
    for seed in 0..10 {
        for_each_event(seed, 4_000, mode, |event| {
            for name in event.names() {
                *tally.entry(name).or_default() += 1;
            }
        });
    }
    tally
}

/// Holds a session's tally to the fewest of each that there must be. Most
/// lines must find the function not busy.
fn check_tally(mode: Mode, fewest: &[(&str, usize)]) {
    let tally = tally(mode);
    for (name, fewest) in fewest {
        let count = tally.get(name).copied().unwrap_or(0);
        assert!(count >= *fewest, "{mode:?}, {name}: {tally:#?}");
    }
    assert!(tally["busy line"] < 40_000 / 8, "{mode:?}: {tally:#?}");
}

#[test]
fn busy_phases_of_the_player() {
    check_tally(
        Player,
        &[
            ("busy line", 1_500),
            ("start", 400),
            ("end", 400),
            ("end, bits reset", 200),
            ("end, not busy", 400),
            ("end, not busy, bits kept", 200),
            ("read", 500),
            ("dropped", 500),
            ("dropped, would close", 60),
            ("dropped, would last", 150),
            ("dropped, would start", 25),
            ("host update", 120),
            ("platform reset", 30),
            ("refused", 60),
            ("no form", 120),
        ],
    );
}

#[test]
fn busy_phases_of_the_console() {
    check_tally(
        Console,
        &[
            ("busy line", 1_200),
            ("start", 300),
            ("start by ports", 80),
            ("end", 300),
            ("end, bits reset", 160),
            ("end, not busy", 250),
            ("end, not busy, bits kept", 150),
            ("read", 100),
            ("read by ports", 40),
            ("dropped", 100),
            ("dropped by ports", 50),
            ("dropped, would close", 30),
            ("dropped, would last", 60),
            ("dropped, would start", 8),
            ("host update", 40),
            ("latch write", 100),
            ("latch read", 25),
            ("claim", 25),
            ("walk", 70),
            ("platform reset", 12),
            ("refused", 90),
            ("no form", 100),
        ],
    );
}

#[test]
fn reads_of_less_than_a_dword_in_the_player() {
    check_tally(
        Player,
        &[
            ("read, some lanes", 2_000),
            ("read, some lanes, changed", 1_000),
            ("read, some lanes, busy", 150),
            ("read, no lanes", 600),
            ("read, no lanes, busy", 40),
        ],
    );
}

#[test]
fn reads_of_less_than_a_dword_in_the_console() {
    check_tally(
        Console,
        &[
            ("read, some lanes", 800),
            ("read, some lanes, changed", 400),
            ("read, some lanes, busy", 40),
            ("read, no lanes", 300),
            ("read, no lanes, busy", 15),
            ("narrow port read", 520),
            ("narrow port read, busy", 18),
        ],
    );
}

#[test]
fn every_session_reads_by_all_lanes() {
    for mode in [Player, Console] {
        for seed in 0..5 {
            let (mut reads, mut in_the_window) = ([0; 16], [0; 16]);
            for_each_event(seed, 10_000, mode, |event| {
                match (event.command, event.said) {
                    (Some(Command::Read { lanes, .. }), Answer::Value(_)) => {
                        reads[lanes as usize] += 1;
                    }
                    (Some(Command::WindowRead { lanes, .. }), Answer::Value(_)) => {
                        in_the_window[lanes as usize] += 1;
                    }
                    _ => {}
                }
            });
            assert!(
                reads.iter().all(|count| *count >= 10),
                "{mode:?}, seed {seed}: {reads:?}"
            );
            let fewest = if mode == Console { 5 } else { 0 };
            assert!(
                in_the_window.iter().all(|count| *count >= fewest),
                "{mode:?}, seed {seed}: {in_the_window:?}"
            );
        }
    }
}

// ---- the window

/// What lies at an offset of the window.
fn place(offset: u32) -> &'static str {
    match offset {
        FAULT_REG => "FAULT_REG",
        ASSRREQ => "ASSRREQ",
        MTOUUD => "MTOUUD",
        MTOUUD_HIGH => "MTOUUD high",
        MBDSM => "MBDSM",
        CYCLE_SUM => "cycle sum",
        _ if offset & 3 != 0 => "unaligned",
        _ if offset > 0x3F_FFFF => "above",
        _ => "elsewhere",
    }
}

/// Whether a command is one of the window's.
fn is_of_the_window(command: Command) -> bool {
    use Command::*;
    matches!(
        command,
        WindowWrite { .. }
            | WindowRead { .. }
            | Complete { .. }
            | Fault { .. }
            | AddCycles { .. }
            | MirrorUpdate { .. }
    )
}

impl Event {
    /// What it counts as, if it has to do with the window.
    fn window_names(&self) -> Vec<String> {
        let mut names: Vec<String> = self.deed().into_iter().collect();
        if !self.before.is_busy() {
            names.extend(self.near_misses().into_iter().map(str::to_string));
        }
        names
    }

    /// What is done, where unless the function is busy, and what comes of it.
    fn deed(&self) -> Option<String> {
        use Command::*;
        let (form, offset) = match self.command? {
            WindowRead { offset, .. } => ("read", Some(offset)),
            WindowWrite { offset, .. } => ("write", Some(offset)),
            MirrorUpdate { offset, .. } => ("update", Some(offset)),
            Complete { .. } => ("completion", None),
            Fault { .. } => ("fault", None),
            AddCycles { .. } => ("cycles", None),
            PlatformReset => ("platform reset", None),
            End if self.keeps_something() => ("end, window kept", None),
            _ if self.starts() && self.keeps_something() => ("start, window kept", None),
            _ => return None,
        };
        let outcome = self.outcome();
        Some(match offset {
            _ if self.before.is_busy() => format!("busy {form}{outcome}"),
            Some(offset) => format!("{form} {}{outcome}", place(offset)),
            None => format!("{form}{outcome}"),
        })
    }

    /// What comes of it for the window.
    fn outcome(&self) -> &'static str {
        let held = self.before.record().window;
        if matches!(self.said, Answer::Refused(_)) {
            ", refused"
        } else if self.after.record().window != held {
            ", changed"
        } else if self.otherwise.record().window != held {
            ", dropped"
        } else {
            ""
        }
    }

    /// Whether a function reset starts with it.
    fn starts(&self) -> bool {
        self.after.is_busy() && !self.before.is_busy()
    }

    /// Whether the window holds something and the line leaves it so.
    fn keeps_something(&self) -> bool {
        let held = self.before.record().window;
        held != [0; 6] && self.after.record().window == held
    }

    /// What a plausible slip would make of it.
    fn near_misses(&self) -> Vec<&'static str> {
        use Command::*;
        let cases = match self.command {
            Some(WindowWrite {
                offset,
                lanes,
                value,
            }) => self.writes_near(offset, lanes, value),
            Some(Fault { word }) => self.faults_near(word),
            Some(AddCycles { count }) => self.sums_near(count),
            Some(MirrorUpdate { offset, mask, .. }) => self.updates_near(offset, mask),
            _ => vec![],
        };
        cases
            .into_iter()
            .filter(|(so, _)| *so)
            .map(|(_, name)| name)
            .collect()
    }

    fn writes_near(&self, offset: u32, lanes: u32, value: u32) -> Vec<(bool, &'static str)> {
        let [fault, requests, mtouud, high, mbdsm, sum] = self.before.record().window;
        let (lane_0, lane_2) = (lanes & 0x1 != 0, lanes & 0x4 != 0);
        let (ones, mask) = (value & 0xF, value >> 16 & 0xF);
        let new = ones & mask & !requests != 0;
        let differs = |held: u32| (held ^ value) & !UNDRIVEN[lanes as usize] != 0;
        match offset {
            ASSRREQ => vec![
                (
                    lane_0 && lane_2 && ones & !mask & !requests != 0,
                    "request, no mask bit",
                ),
                (lane_0 && !lane_2 && new, "request, mask's lane off"),
                (!lane_0 && lane_2 && new, "request, own lane off"),
                (
                    lane_0 && lane_2 && !ones & mask & requests != 0,
                    "zero over a request",
                ),
                (
                    lanes == 0xF && value & value >> 16 & 0xFFF0 != 0,
                    "request above bit 3",
                ),
            ],
            FAULT_REG => vec![
                (
                    !lane_0 && value & 1 == 0 && fault != 0,
                    "clear, its lane off",
                ),
                (lane_0 && value & 1 == 1 && fault != 0, "clear by a one"),
                (
                    lanes & 0x3 == 0x1 && value & 1 == 0 && fault > 0xFF,
                    "clear by its lane alone",
                ),
            ],
            MTOUUD => vec![(differs(mtouud), "write over a mirror")],
            MTOUUD_HIGH => vec![(differs(high), "write over a mirror")],
            MBDSM => vec![(differs(mbdsm), "write over a mirror")],
            CYCLE_SUM => vec![(differs(sum), "write over the sum")],
            _ => vec![],
        }
    }

    fn updates_near(&self, offset: u32, mask: u32) -> Vec<(bool, &'static str)> {
        let is_mirror = [MTOUUD, MTOUUD_HIGH, MBDSM].contains(&offset);
        match self.said {
            Answer::Refused(Refusal::WindowOffset) => {
                vec![(mask & !0xFFF0_007F != 0, "16 before 7")]
            }
            Answer::Refused(_) => vec![
                (is_mirror, "update outside a mirror's mask"),
                (
                    !is_mirror && REGISTERS.contains(&offset),
                    "update of another register",
                ),
            ],
            _ => vec![(
                place(offset) == "elsewhere" && mask == 0,
                "mask 0 elsewhere",
            )],
        }
    }

    fn faults_near(&self, word: u32) -> Vec<(bool, &'static str)> {
        let held = self.before.record().window[0];
        if matches!(self.said, Answer::Refused(_)) {
            return vec![(held != 0, "bad word over a fault")];
        }
        vec![
            (held != 0 && held != word | 1, "fault lost"),
            (held == 0 && word == 0, "fault of zeros"),
        ]
    }

    fn sums_near(&self, count: u32) -> Vec<(bool, &'static str)> {
        let sum = self.before.record().window[5];
        vec![
            (sum.checked_add(count).is_none(), "wrap"),
            (count != 0 && sum.wrapping_add(count) == 0, "wrap to 0"),
            (sum.wrapping_add(count) == u32::MAX, "sum at the top"),
        ]
    }
}

/// What every session of 10,000 lines has of the window, at least so often.
const OF_THE_WINDOW: &[(&str, usize)] = &[
    ("read FAULT_REG", 150),
    ("read ASSRREQ", 150),
    ("read MTOUUD", 50),
    ("read MTOUUD high", 50),
    ("read MBDSM", 50),
    ("read cycle sum", 50),
    ("read elsewhere", 80),
    ("read unaligned, refused", 5),
    ("read above, refused", 2),
    ("write FAULT_REG", 40),
    ("write FAULT_REG, changed", 5),
    ("clear, its lane off", 3),
    ("clear by a one", 3),
    ("clear by its lane alone", 1),
    ("write ASSRREQ", 20),
    ("write ASSRREQ, changed", 20),
    ("request, no mask bit", 2),
    ("request, mask's lane off", 2),
    ("request, own lane off", 2),
    ("request above bit 3", 5),
    ("zero over a request", 2),
    ("write MTOUUD", 5),
    ("write MTOUUD high", 5),
    ("write MBDSM", 5),
    ("write over a mirror", 20),
    ("write cycle sum", 10),
    ("write over the sum", 10),
    ("write elsewhere", 10),
    ("write unaligned, refused", 5),
    ("write above, refused", 2),
    ("completion, changed", 5),
    ("completion, refused", 2),
    ("fault, changed", 10),
    ("fault, refused", 7),
    ("fault lost", 5),
    ("fault of zeros", 1),
    ("bad word over a fault", 2),
    ("cycles, changed", 10),
    ("wrap", 4),
    ("wrap to 0", 1),
    ("sum at the top", 2),
    ("update MTOUUD, changed", 2),
    ("update MTOUUD high, changed", 2),
    ("update MBDSM, changed", 2),
    ("update outside a mirror's mask", 5),
    ("update of another register", 5),
    ("update elsewhere, refused", 5),
    ("mask 0 elsewhere", 5),
    ("update unaligned, refused", 4),
    ("update above, refused", 2),
    ("16 before 7", 1),
    ("busy read", 5),
    ("busy read, refused", 3),
    ("busy write, dropped", 4),
    ("busy write, refused", 4),
    ("busy completion, changed", 1),
    ("busy fault, changed", 3),
    ("busy fault, refused", 1),
    ("busy cycles, changed", 4),
    ("busy update, changed", 5),
    ("busy update, refused", 10),
    ("start, window kept", 40),
    ("busy end, window kept", 40),
    ("end, window kept", 40),
    ("platform reset, changed", 20),
];

#[test]
fn every_session_has_all_of_the_window() {
    for seed in 0..5 {
        let mut tally: BTreeMap<String, usize> = BTreeMap::new();
        for_each_event(seed, 10_000, Console, |event| {
            for name in event.window_names() {
                *tally.entry(name).or_default() += 1;
            }
        });
        for (name, fewest) in OF_THE_WINDOW {
            let count = tally.get(*name).copied().unwrap_or(0);
            assert!(count >= *fewest, "seed {seed}, {name}: {tally:#?}");
        }
    }
}

/// The offset of an accepted guest access in the window.
fn accessed(event: &Event) -> Option<u32> {
    match (event.command, event.said) {
        (Some(Command::WindowRead { offset, .. }), Answer::Value(_)) => Some(offset),
        (Some(Command::WindowWrite { offset, .. }), Answer::Done) => Some(offset),
        _ => None,
    }
}

#[test]
fn every_session_goes_from_claims_to_registers() {
    for seed in 0..5 {
        let mut claimed = None;
        let mut reached: BTreeMap<u32, usize> = BTreeMap::new();
        for_each_event(seed, 10_000, Console, |event| {
            if let Some(offset) = accessed(&event).filter(|offset| claimed == Some(*offset)) {
                *reached.entry(offset).or_default() += 1;
            }
            claimed = match event.said {
                Answer::Claim(Claim::Translation(offset)) => Some(offset),
                _ => None,
            };
        });
        for register in REGISTERS {
            let count = reached.get(&register).copied().unwrap_or(0);
            assert!(count >= 1, "seed {seed}, {register:06X}: {reached:X?}");
        }
    }
}

#[test]
fn only_the_console_knows_the_windows_lines() {
    let mut lines_of_the_window = 0;
    for seed in 0..10 {
        for line in lines(&text(seed, 4_000, Player)) {
            let line = line.strip_suffix(b"\n").unwrap_or(line);
            if matches!(parse(line, Console), Some(command) if is_of_the_window(command)) {
                assert_eq!(parse(line, Player), None);
                lines_of_the_window += 1;
            }
        }
    }
    assert!(lines_of_the_window > 60, "{lines_of_the_window}");
}

// ---- wrong reads

/// A way to read wrongly: its name, and what a command then reads for a value.
type Fault = (&'static str, fn(&Event, u32) -> u32);

/// The bits above a port access's width.
fn above(width: u32) -> u32 {
    u32::MAX.checked_shl(8 * width).unwrap_or(0)
}

const DIRECT_FAULTS: [Fault; 2] = [
    ("undriven lanes as zero", |event, value| {
        match event.command {
            Some(Command::Read { lanes, .. }) => value & !UNDRIVEN[lanes as usize],
            _ => value,
        }
    }),
    ("lanes 0 as zero", |event, value| match event.command {
        Some(Command::Read { lanes: 0, .. }) => 0,
        _ => value,
    }),
];

/// While busy there is no such fault: what is held reads as ones.
const FAULTS_WHEN_NOT_BUSY: [Fault; 1] = [("undriven lanes as held", |event, value| {
    match event.command {
        Some(Command::Read { offset, .. }) => event.before.guest_read(offset, 0xF).unwrap(),
        _ => value,
    }
})];

const PORT_FAULTS: [Fault; 2] = [
    ("ones above the width", |event, value| match event.command {
        Some(Command::PortRead { width, .. }) => value | above(width),
        _ => value,
    }),
    ("a direct read moved down", |event, value| {
        match event.command {
            Some(Command::PortRead { port, width }) if port >= 0xCFC => {
                value | above(width) & u32::MAX >> (8 * (port - 0xCFC))
            }
            _ => value,
        }
    }),
];

/// Which of the faults don't show in a session, in its lines that find the
/// function busy or in those that don't.
fn missed(seed: u64, mode: Mode, busy: bool, faults: &[Fault]) -> Vec<&'static str> {
    let mut missed = faults.to_vec();
    for_each_event(seed, 10_000, mode, |event| match event.said {
        Answer::Value(value) if event.before.is_busy() == busy => {
            missed.retain(|(_, wrong)| wrong(&event, value) == value);
        }
        _ => {}
    });
    missed.into_iter().map(|(name, _)| name).collect()
}

#[test]
fn every_session_finds_wrong_reads() {
    for seed in 0..5 {
        for (mode, faults) in [
            (Player, DIRECT_FAULTS.to_vec()),
            (Console, [DIRECT_FAULTS, PORT_FAULTS].concat()),
        ] {
            let when_busy = missed(seed, mode, true, &faults);
            assert!(when_busy.is_empty(), "{mode:?}, seed {seed}: {when_busy:?}");
            let faults = [&faults[..], &FAULTS_WHEN_NOT_BUSY].concat();
            let otherwise = missed(seed, mode, false, &faults);
            assert!(otherwise.is_empty(), "{mode:?}, seed {seed}: {otherwise:?}");
        }
    }
}

#[test]
fn right_reads_are_no_fault() {
    let right: Fault = ("right", |_, value| value);
    for busy in [true, false] {
        assert_eq!(missed(0, Console, busy, &[right]), ["right"]);
    }
}

// ---- ends and differences

#[test]
fn some_sessions_lack_the_last_lf() {
    let without = (0..60)
        .filter(|seed| !text(*seed, 5, Player).ends_with(b"\n"))
        .count();
    assert!((15..=55).contains(&without), "{without}");
}

#[test]
fn differences_are_found() {
    let session = b"P\nR 00 F\nP";
    assert_eq!(difference(session, b"OK\nA\nOK\n", b"OK\nA\nOK\n"), None);
    let found = difference(session, b"OK\nA\nOK\n", b"OK\nB\nOK\n").unwrap();
    assert_eq!(found.number, 2);
    assert_eq!(found.line.as_deref(), Some(&b"R 00 F\n"[..]));
    assert_eq!(found.ours.as_deref(), Some(&b"A\n"[..]));
    assert_eq!(found.theirs.as_deref(), Some(&b"B\n"[..]));
    let missing_lf = difference(session, b"OK\nA\nOK\n", b"OK\nA\nOK").unwrap();
    assert_eq!(
        (missing_lf.number, missing_lf.line.as_deref()),
        (3, Some(&b"P"[..]))
    );
    let short = difference(session, b"OK\nA\nOK\n", b"OK\nA\n").unwrap();
    assert_eq!((short.number, short.theirs), (3, None));
    let long = difference(session, b"OK\n", b"OK\nOK\n").unwrap();
    assert_eq!((long.number, long.ours), (2, None));
}
