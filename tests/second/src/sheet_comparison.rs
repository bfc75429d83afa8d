//! Two programs that take register sheets, held to this one: the player on a
//! sheet's device, and the table of a sheet.

use std::collections::BTreeMap;
use std::fmt;

use crate::damage::{kinds, Kind, Meant};
use crate::difference::{difference, lines};
use crate::made_sheet::{between, made, Shape};
use crate::plain_device;
use crate::rng::Rng;
use crate::sheet::{self, lay_out, Fault, Sheet};
use crate::sheet_session;

/// A session on a good sheet has at least so many lines: more than its opening.
const FEWEST_LINES: u64 = 800;
/// Only every so many of the lines asked for go to shapes but the first.
const LINES_TO_A_LINE: u64 = 10;
/// A session that is fed in pieces comes in at most so many.
const MOST_PIECES: usize = 4_000;
/// A session that follows a refused sheet, and isn't to be played, has fewer lines.
const UNPLAYED_LINES: u64 = 6;

/// A sheet, good or not, and a session on it.
#[derive(Clone, Debug)]
pub struct Case {
    /// The seed that it was made from.
    pub seed: u64,
    /// The shape or the damage.
    pub kind: &'static str,
    /// The sheet's bytes.
    pub sheet: Vec<u8>,
    /// What is meant by them.
    pub meant: Meant,
    /// The session.
    pub session: Vec<u8>,
    /// The size of the pieces that the session is fed in.
    pub piece: usize,
}

/// The cases of a seed: a good sheet of each shape and a sheet with each kind
/// of damage. The first one's session has so many lines.
pub fn cases(seed: u64, lines: u64) -> impl Iterator<Item = Case> {
    let mut rng = Rng::new(seed);
    let mut damaging = Rng::new(!seed);
    let good = Shape::ALL
        .into_iter()
        .map(move |shape| good_case(&mut rng, seed, shape, lines));
    good.chain(kinds().map(move |kind| damaged_case(&mut damaging, seed, kind)))
}

/// A good sheet of that shape; the session on a few registers comes in pieces.
fn good_case(rng: &mut Rng, seed: u64, shape: Shape, lines: u64) -> Case {
    let sheet = made(rng, shape);
    let lines = match shape {
        Shape::Any => lines,
        _ => lines / LINES_TO_A_LINE,
    };
    let session = sheet_session::text(rng, &sheet, lines.max(FEWEST_LINES));
    let piece = match shape {
        Shape::Few => between(rng, 1, 40).max(session.len() / MOST_PIECES),
        _ => usize::MAX,
    };
    Case {
        seed,
        kind: shape.name(),
        sheet: lay_out(&sheet.registers),
        meant: Meant::Good,
        session,
        piece,
    }
}

/// A sheet with damage of that kind; chance may leave it good.
fn damaged_case(rng: &mut Rng, seed: u64, (kind, damage): &'static Kind) -> Case {
    let damaged = damage(rng);
    let session = match sheet::read(&damaged.bytes) {
        Ok(sheet) => sheet_session::text(rng, &sheet, FEWEST_LINES),
        Err(_) => {
            let lines = rng.below(UNPLAYED_LINES);
            sheet_session::text(rng, &unrelated(), lines)
        }
    };
    Case {
        seed,
        kind,
        sheet: damaged.bytes,
        meant: damaged.meant,
        session,
        piece: usize::MAX,
    }
}

/// A sheet for sessions that aren't to be played.
fn unrelated() -> Sheet {
    made(&mut Rng::new(0), Shape::Few)
}

/// What a program said: standard output and standard error.
#[derive(Clone, Debug, PartialEq, Eq)]
pub struct Said {
    /// Standard output.
    pub output: Vec<u8>,
    /// Standard error.
    pub complaint: Vec<u8>,
}

impl Said {
    /// What is to be said of a sheet: a good one's output, or its refusal.
    fn of(sheet: &Result<Sheet, Fault>, output: impl FnOnce(&Sheet) -> Vec<u8>) -> Said {
        match sheet {
            Ok(sheet) => Said {
                output: output(sheet),
                complaint: Vec::new(),
            },
            Err(fault) => Said {
                output: format!("NO {}\n", fault.refusal().number()).into_bytes(),
                complaint: format!("{fault}\n").into_bytes(),
            },
        }
    }
}

/// What is to be said of these bytes and a session on them.
pub fn played(sheet: &[u8], session: &[u8]) -> Said {
    Said::of(&sheet::read(sheet), |sheet| {
        plain_device::answers(sheet, session)
    })
}

/// What is to be said of these bytes as a table.
pub fn shown(sheet: &[u8]) -> Said {
    Said::of(&sheet::read(sheet), |sheet| sheet.table().into_bytes())
}

/// Holds what the two programs said of a case to what is to be said.
pub fn check(case: &Case, by_player: &Said, by_show: &Said) -> Result<(), String> {
    let sheet = sheet::read(&case.sheet);
    let fault = sheet.as_ref().err().copied();
    // No line of the session is answered if the sheet is refused.
    let session: &[u8] = if fault.is_none() { &case.session } else { b"" };
    let outcome = check_meant(case.meant, fault)
        .and_then(|()| {
            let ours = played(&case.sheet, &case.session);
            check_said("player", session, &ours, by_player, fault)
        })
        .and_then(|()| check_said("show", b"", &shown(&case.sheet), by_show, fault));
    outcome.map_err(|what| format!("{case}: {what}\n  the sheet: {}", hex(&case.sheet)))
}

/// Holds our own reader to what the maker of the sheet meant.
fn check_meant(meant: Meant, fault: Option<Fault>) -> Result<(), String> {
    let met = match (meant, fault) {
        (Meant::Chance, _) | (Meant::Good, None) => true,
        (Meant::Refused { number, entry }, Some(fault)) => {
            (number, entry) == (fault.refusal().number(), fault.entry())
        }
        _ => false,
    };
    if met {
        Ok(())
    } else {
        Err(format!("second finds {fault:?} where {meant:?} was meant"))
    }
}

/// Holds what one program said to what is to be said.
fn check_said(
    program: &str,
    session: &[u8],
    ours: &Said,
    theirs: &Said,
    fault: Option<Fault>,
) -> Result<(), String> {
    if let Some(difference) = difference(session, &ours.output, &theirs.output) {
        return Err(format!("{program}, {difference}"));
    }
    check_complaint(&theirs.complaint, fault).map_err(|what| {
        let complaint = theirs.complaint.escape_ascii();
        format!("{program}, standard error {what}: \"{complaint}\"")
    })
}

/// Holds standard error to a fault: one line that names the entry, if the
/// fault is in one, and nothing if there is no fault.
fn check_complaint(complaint: &[u8], fault: Option<Fault>) -> Result<(), String> {
    let fault = match fault {
        None if complaint.is_empty() => return Ok(()),
        None => return Err("isn't empty".to_string()),
        Some(fault) => fault,
    };
    let text = String::from_utf8_lossy(complaint);
    let line = text.strip_suffix('\n').unwrap_or("");
    if line.trim().is_empty() || line.contains('\n') {
        return Err("isn't one line".to_string());
    }
    match fault.entry() {
        Some(entry) if !names_entry(line, entry) => Err(format!("doesn't name entry {entry}")),
        _ => Ok(()),
    }
}

/// Whether a text has `entry K` with that number, and not one that starts so.
fn names_entry(text: &str, entry: usize) -> bool {
    text.split(&format!("entry {entry}"))
        .skip(1)
        .any(|rest| !rest.starts_with(|next: char| next.is_ascii_digit()))
}

/// Bytes in hex, without spaces.
fn hex(bytes: &[u8]) -> String {
    bytes.iter().map(|byte| format!("{byte:02X}")).collect()
}

impl fmt::Display for Case {
    fn fmt(&self, f: &mut fmt::Formatter<'_>) -> fmt::Result {
        write!(f, "seed {}, sheet '{}'", self.seed, self.kind)
    }
}

/// The refusals that a sheet can meet.
const REFUSALS: [u32; 3] = [12, 13, 14];

/// How many sheets of which kinds agreed, and in how many lines.
#[derive(Default)]
pub struct Tally {
    good: usize,
    refused: BTreeMap<u32, usize>,
    kinds: BTreeMap<&'static str, usize>,
    lines: usize,
}

impl Tally {
    /// Counts a case that agreed.
    pub fn add(&mut self, case: &Case) {
        match sheet::read(&case.sheet) {
            Ok(_) => self.good += 1,
            Err(fault) => *self.refused.entry(fault.refusal().number()).or_default() += 1,
        }
        *self.kinds.entry(case.kind).or_default() += 1;
        self.lines += lines(&played(&case.sheet, &case.session).output).count();
        self.lines += lines(&shown(&case.sheet).output).count();
    }

    /// What should have been among the cases and wasn't.
    pub fn missing(&self) -> Vec<String> {
        let good = (self.good == 0).then(|| "good".to_string());
        let refusals = REFUSALS
            .iter()
            .filter(|number| !self.refused.contains_key(number))
            .map(|number| format!("refused by {number}"));
        let shapes = Shape::ALL.into_iter().map(Shape::name);
        let kinds = shapes
            .chain(kinds().map(|(kind, _)| *kind))
            .filter(|kind| !self.kinds.contains_key(kind))
            .map(String::from);
        good.into_iter().chain(refusals).chain(kinds).collect()
    }
}

impl fmt::Display for Tally {
    fn fmt(&self, f: &mut fmt::Formatter<'_>) -> fmt::Result {
        let refused = |number| self.refused.get(&number).copied().unwrap_or(0);
        let [by_12, by_13, by_14] = REFUSALS.map(refused);
        write!(
            f,
            "{} lines agreed on {} sheets of {} kinds: {} good, {by_12} refused by 12, {by_13} by 13, {by_14} by 14",
            self.lines,
            self.good + by_12 + by_13 + by_14,
            self.kinds.len(),
            self.good,
        )
    }
}
