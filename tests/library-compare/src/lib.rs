//! Holds the library to the second program: the same operations on one lent
//! record and on the second program's twin, with the answer and the whole
//! record compared after each.
//!
//! Everything that the library can be seen to do is compared: the packed
//! answer, the 288 bytes of the record, the bytes just before and behind it,
//! and the bytes that a walk goes over.

pub mod call;
pub mod lent;
pub mod make;
pub mod sweeps;
pub mod tally;

use std::fmt;

use second::rng::Rng;
use second::twin::{Record, Twin};

use call::{answer, Call};
use lent::Lent;
use make::{call, foreign};
use tally::{Phase, Tally};

/// What carries out a call on a lent record: the archive, or a right library,
/// with a fault or without.
pub type Library<'a> = &'a dyn Fn(&mut Lent, &mut Call) -> u64;

/// A call after which the two differ.
#[derive(Debug)]
pub struct Difference {
    /// The session and the step in it, or the sweep.
    pub place: String,
    /// The call.
    pub call: Call,
    /// What differs.
    pub what: String,
}

impl fmt::Display for Difference {
    fn fmt(&self, f: &mut fmt::Formatter<'_>) -> fmt::Result {
        writeln!(f, "{}: {}", self.place, self.what)?;
        write!(f, "  after {:X?}", self.call)
    }
}

/// A record and the twin that it should be, side by side.
pub struct Pair<'a> {
    library: Library<'a>,
    lent: Lent,
    twin: Twin,
}

impl<'a> Pair<'a> {
    /// A pair over a record of any making.
    pub fn new(library: Library<'a>, lent: Lent) -> Pair<'a> {
        Pair {
            library,
            twin: Twin::of_record(&lent.fields()),
            lent,
        }
    }

    /// The second program's twin, for aiming the next call.
    pub fn twin(&self) -> &Twin {
        &self.twin
    }

    /// Carries out one call on both, and compares.
    pub fn step(&mut self, call: &Call, tally: &mut Tally) -> Result<(), String> {
        let before = self.lent;
        let was_busy = self.twin.is_busy();
        let mut made = call.clone();
        let theirs = (self.library)(&mut self.lent, &mut made);
        let ours = answer(&mut self.twin, call);
        let phase = Phase::of(was_busy, self.twin.is_busy());
        let turn = self.lent.fields().window.cmp(&before.fields().window);
        tally.count(call, ours, phase, turn);
        self.compare(&before, theirs, ours)?;
        if made != *call {
            return Err("the bytes walked over were changed".to_string());
        }
        Ok(())
    }

    fn compare(&self, before: &Lent, theirs: u64, ours: u64) -> Result<(), String> {
        if theirs != ours {
            return Err(format!(
                "the library answers {theirs:016X}, the second program {ours:016X}"
            ));
        }
        if self.lent.around() != before.around() {
            return Err("bytes beside the record were changed".to_string());
        }
        let wanted = self.twin.record();
        let is = self.lent.fields();
        if let Some(at) = (0..256).find(|at| is.bytes[*at] != wanted.bytes[*at]) {
            return Err(format!(
                "byte {at:02X} is {:02X}, and {:02X} in the second program",
                is.bytes[at], wanted.bytes[at]
            ));
        }
        if is != wanted {
            return Err(format!(
                "latch, flags, busy byte and window are {}, and {} in the second program",
                behind_the_bytes(&is),
                behind_the_bytes(&wanted)
            ));
        }
        Ok(())
    }
}

/// A record's latch, flags, busy byte and window.
fn behind_the_bytes(record: &Record) -> String {
    format!(
        "{:08X} {:02X?} {:02X} {:08X?}",
        record.latch, record.closed, record.busy, record.window
    )
}

/// Steps from the fresh state in one session.
const FRESH_STEPS: usize = 1200;
/// Records of foreign making in one session.
const FOREIGN_RECORDS: usize = 20;
/// Steps on each of them.
const FOREIGN_STEPS: usize = 60;

/// The session of a seed: a long run from the fresh state, and short ones over
/// records of foreign making.
pub fn session(library: Library, seed: u64, tally: &mut Tally) -> Result<(), Difference> {
    let mut rng = Rng::new(seed);
    let place = |run: usize, step: usize| format!("seed {seed}, run {run}, step {step}");
    for run in 0..=FOREIGN_RECORDS {
        let mut pair = Pair::new(library, foreign(&mut rng));
        let steps = if run == 0 { FRESH_STEPS } else { FOREIGN_STEPS };
        for step in 0..steps {
            let call = match (run, step) {
                (0, 0) => Call::PlatformReset,
                _ => call(&mut rng, pair.twin()),
            };
            pair.step(&call, tally).map_err(|what| Difference {
                place: place(run, step),
                call,
                what,
            })?;
        }
    }
    Ok(())
}

/// Every sweep, then the sessions of the seeds.
pub fn compare(
    library: Library,
    seeds: std::ops::Range<u64>,
    tally: &mut Tally,
) -> Result<(), Difference> {
    sweeps::all(library, tally)?;
    seeds
        .into_iter()
        .try_for_each(|seed| session(library, seed, tally))
}
