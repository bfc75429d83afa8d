//! What the calls came to, so that a comparison that never meets a case is seen.

use std::cmp::Ordering::{self, Equal, Greater, Less};
use std::collections::BTreeMap;
use std::fmt;

use second::window::Register;

use crate::call::Call;

/// Where a call stands to a function reset.
#[derive(Clone, Copy, Debug, PartialEq, Eq, PartialOrd, Ord)]
pub enum Phase {
    /// None runs.
    Idle,
    /// The call starts one.
    Starts,
    /// One runs, before the call and after it.
    Busy,
    /// The call ends one.
    Ends,
}

impl Phase {
    /// The phase of a call, from busy before it and after it.
    pub fn of(before: bool, after: bool) -> Phase {
        match (before, after) {
            (false, false) => Phase::Idle,
            (false, true) => Phase::Starts,
            (true, true) => Phase::Busy,
            (true, false) => Phase::Ends,
        }
    }
}

/// A phase, a kind of call, and the number that it was answered by.
type Case = (Phase, String, u16);

/// How often each kind of call had each kind of answer.
#[derive(Default)]
pub struct Tally {
    seen: BTreeMap<Case, u64>,
    calls: u64,
}

/// Every call with every number that it can be answered by, idle and busy.
const WANTED: &[(&str, &[u16], &[u16])] = &[
    ("platform reset", &[0], &[]),
    ("write", &[0, 5, 6], &[0, 5, 6]),
    ("write by value", &[0, 5, 6], &[0, 5, 6]),
    ("read", &[0, 5, 6], &[0, 5, 6]),
    ("probe, no kind", &[8], &[8]),
    ("probe, kind 1", &[0], &[0]),
    ("probe, kind 2", &[0], &[0]),
    ("probe, kind 3", &[0], &[0]),
    ("walk, absent", &[0, 1, 10, 11], &[0, 1, 10, 11]),
    ("walk, found", &[0], &[0]),
    ("do 0", &[0], &[]),
    ("do 1", &[0, 5, 6], &[0, 5, 6]),
    ("do 2", &[0, 5, 6], &[0, 5, 6]),
    ("do 3", &[0, 5, 7, 9], &[0, 5, 7, 9]),
    ("do 4", &[0, 2, 3, 4, 9], &[0, 2, 3, 4, 9]),
    ("do 5", &[0, 2, 3, 4, 9], &[0, 2, 3, 4, 9]),
    ("do 6, window 0", &[0], &[0]),
    ("do 6, window 1", &[0], &[]),
    ("do 6, window 2", &[0], &[]),
    ("do 7, window 0", &[0, 9], &[0, 9]),
    ("do 7, window 3", &[0], &[]),
    ("do 8, no kind", &[8], &[8]),
    ("do 8, kind 1", &[0], &[0]),
    ("do 8, kind 2", &[0], &[0]),
    ("do 8, kind 3", &[0], &[0]),
    ("do 9, absent", &[0, 9, 10, 11], &[9, 11]),
    ("do 9, found", &[0], &[0]),
    ("do 10", &[0], &[]),
    ("do another", &[9], &[9]),
];

/// What can become of a register's number.
type Turns = &'static [Ordering];

const STAYS: Turns = &[Equal];
/// A sum is less where it has wrapped.
const EVERY: Turns = &[Less, Equal, Greater];

/// The window's operations, with the register that the offset names: what can
/// become of what is held where the call is accepted, idle and busy, and the
/// refusals.
const WINDOW: &[(&str, Turns, Turns, &[u16])] = &[
    ("do 11, FaultReg", &[Less, Equal], STAYS, &[6]),
    ("do 11, Assrreq", &[Equal, Greater], STAYS, &[6]),
    ("do 11, Mtouud", STAYS, STAYS, &[6]),
    ("do 11, MtouudHigh", STAYS, STAYS, &[6]),
    ("do 11, Mbdsm", STAYS, STAYS, &[6]),
    ("do 11, CycleSum", STAYS, STAYS, &[6]),
    ("do 11, no register", STAYS, STAYS, &[6, 16]),
    ("do 12, FaultReg", STAYS, STAYS, &[6]),
    ("do 12, Assrreq", STAYS, STAYS, &[6]),
    ("do 12, Mtouud", STAYS, STAYS, &[6]),
    ("do 12, MtouudHigh", STAYS, STAYS, &[6]),
    ("do 12, Mbdsm", STAYS, STAYS, &[6]),
    ("do 12, CycleSum", STAYS, STAYS, &[6]),
    ("do 12, no register", STAYS, STAYS, &[6, 16]),
    ("do 13", &[Less, Equal], &[Less, Equal], &[7]),
    ("do 14", EVERY, EVERY, &[7]),
    ("do 15", EVERY, EVERY, &[]),
    ("do 16, FaultReg", STAYS, STAYS, &[7]),
    ("do 16, Assrreq", STAYS, STAYS, &[7]),
    ("do 16, Mtouud", EVERY, EVERY, &[7]),
    ("do 16, MtouudHigh", EVERY, EVERY, &[7]),
    ("do 16, Mbdsm", EVERY, EVERY, &[7]),
    ("do 16, CycleSum", STAYS, STAYS, &[7]),
    ("do 16, no register", STAYS, STAYS, &[7, 16]),
];

/// The calls that start a function reset, and those that end one.
const STARTS: &[&str] = &["write", "write by value", "do 1", "do 4"];
const ENDS: &[&str] = &["platform reset", "do 0", "do 10"];

/// The cases of a call in a phase: its numbers.
fn numbered(phase: Phase, name: &str, numbers: &[u16]) -> Vec<Case> {
    let case = |number: &u16| (phase, name.to_string(), *number);
    numbers.iter().map(case).collect()
}

/// The cases of a call in the window: its turns where it is accepted, and no
/// turn where it is refused.
fn in_window(phase: Phase, name: &str, turns: Turns, refusals: &[u16]) -> Vec<Case> {
    let accepted = turns
        .iter()
        .flat_map(|turn| numbered(phase, &turned(name, *turn), &[0]));
    let refused = numbered(phase, &turned(name, Equal), refusals);
    accepted.chain(refused).collect()
}

fn wanted() -> Vec<Case> {
    let mut cases = Vec::new();
    for (name, idle, busy) in WANTED {
        cases.extend(numbered(Phase::Idle, name, idle));
        cases.extend(numbered(Phase::Busy, name, busy));
    }
    for (name, idle, busy, refusals) in WINDOW {
        cases.extend(in_window(Phase::Idle, name, idle, refusals));
        cases.extend(in_window(Phase::Busy, name, busy, refusals));
    }
    for (phase, names) in [(Phase::Starts, STARTS), (Phase::Ends, ENDS)] {
        for name in names {
            cases.extend(numbered(phase, name, &[0]));
        }
    }
    cases
}

impl Tally {
    /// Counts a call and its answer. The turn is that of what the window holds:
    /// no call changes more than one of its registers, but a platform reset.
    pub fn count(&mut self, call: &Call, answer: u64, phase: Phase, turn: Ordering) {
        self.calls += 1;
        let name = name(call, (answer >> 32) as u16, turn);
        let case = (phase, name, (answer >> 48) as u16);
        *self.seen.entry(case).or_default() += 1;
    }

    /// Calls in all.
    pub fn calls(&self) -> u64 {
        self.calls
    }

    /// Calls with answers that were never met, and met ones that cannot be.
    pub fn faults(&self) -> Vec<String> {
        let wanted = wanted();
        let unmet = wanted.iter().filter(|case| !self.seen.contains_key(case));
        let odd = self.seen.keys().filter(|case| !wanted.contains(case));
        unmet
            .map(|case| format!("never met: {}", say(case)))
            .chain(odd.map(|case| format!("not expected: {}", say(case))))
            .collect()
    }
}

fn say((phase, name, number): &Case) -> String {
    format!("{phase:?}: {name}, number {number}")
}

/// A call in the window by what it makes of the register.
fn turned(name: &str, turn: Ordering) -> String {
    format!("{name}, {turn:?}")
}

fn name(call: &Call, high: u16, turn: Ordering) -> String {
    let kind = || match high {
        0 => "no kind".to_string(),
        kind => format!("kind {kind}"),
    };
    let item = || if high == 0 { "absent" } else { "found" };
    match call {
        Call::PlatformReset => "platform reset".to_string(),
        Call::Write(..) => "write".to_string(),
        Call::WriteByValue(..) => "write by value".to_string(),
        Call::Read(..) => "read".to_string(),
        Call::Probe(..) => format!("probe, {}", kind()),
        Call::Walk(..) => format!("walk, {}", item()),
        Call::Do(op @ (0..=5 | 10), ..) => format!("do {op}"),
        Call::Do(op @ 6..=7, ..) => format!("do {op}, window {high}"),
        Call::Do(8, ..) => format!("do 8, {}", kind()),
        Call::Do(9, ..) => format!("do 9, {}", item()),
        Call::Do(op @ (11 | 12 | 16), offset, ..) => {
            let register = Register::at(*offset)
                .map_or_else(|| "no register".to_string(), |named| format!("{named:?}"));
            turned(&format!("do {op}, {register}"), turn)
        }
        Call::Do(op @ 13..=15, ..) => turned(&format!("do {op}"), turn),
        Call::Do(..) => "do another".to_string(),
    }
}

impl fmt::Display for Tally {
    fn fmt(&self, f: &mut fmt::Formatter<'_>) -> fmt::Result {
        for (case, times) in &self.seen {
            writeln!(f, "{times:9}  {}", say(case))?;
        }
        Ok(())
    }
}
