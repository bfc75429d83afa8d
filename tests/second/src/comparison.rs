//! What the comparing programs share: their seeds, and how they end.

use std::fmt;
use std::io;
use std::ops::Range;
use std::process::ExitCode;

/// A range of seeds, `A..B`, that isn't empty.
pub fn seeds(text: &str) -> Option<Range<u64>> {
    let (start, end) = text.split_once("..")?;
    let seeds = start.parse().ok()?..end.parse().ok()?;
    (!seeds.is_empty()).then_some(seeds)
}

/// What went wrong.
#[derive(Clone, Debug, PartialEq, Eq)]
pub enum Trouble {
    /// The programs differ.
    Difference(String),
    /// The comparison couldn't be made.
    Failed(String),
}

impl From<io::Error> for Trouble {
    fn from(error: io::Error) -> Trouble {
        Trouble::Failed(error.to_string())
    }
}

/// Tells how a comparison ended: with status 0 if all agreed, 1 if there was
/// a difference, 2 if it couldn't be made.
pub fn end(name: &str, agreed: &impl fmt::Display, result: Result<(), Trouble>) -> ExitCode {
    match result {
        Ok(()) => {
            println!("{agreed}");
            ExitCode::SUCCESS
        }
        Err(Trouble::Difference(report)) => {
            println!("DIFFERENCE in {report}");
            println!("{agreed} before");
            ExitCode::FAILURE
        }
        Err(Trouble::Failed(what)) => {
            eprintln!("{name}: {what}");
            ExitCode::from(2)
        }
    }
}
