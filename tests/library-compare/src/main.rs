//! `library-compare [SESSIONS [FIRST]]`: every sweep, and the sessions of so
//! many seeds from FIRST on (100 from 0 unless given). Status 1 tells of a
//! difference, or of an answer that no call had; status 2 of a mistake in calling.

mod archive;

use std::process::ExitCode;

use library_compare::{compare, tally::Tally};

fn main() -> ExitCode {
    let numbers: Result<Vec<u64>, _> = std::env::args().skip(1).map(|word| word.parse()).collect();
    let (sessions, first) = match numbers.as_deref() {
        Ok([]) => (100, 0),
        Ok([sessions]) => (*sessions, 0),
        Ok([sessions, first]) => (*sessions, *first),
        _ => {
            eprintln!("usage: library-compare [SESSIONS [FIRST]]");
            return ExitCode::from(2);
        }
    };
    let mut tally = Tally::default();
    if let Err(difference) = compare(&archive::answer, first..first + sessions, &mut tally) {
        println!("{difference}");
        return ExitCode::FAILURE;
    }
    let faults = tally.faults();
    if !faults.is_empty() {
        println!("{tally}{}", faults.join("\n"));
        return ExitCode::FAILURE;
    }
    println!(
        "{} operations agree, each with the whole record",
        tally.calls()
    );
    ExitCode::SUCCESS
}
