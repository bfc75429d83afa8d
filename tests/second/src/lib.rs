//! An independent second program for the device twin.
//!
//! It is written from the paper `01-scope.md` and from the table of console
//! lines alone, so that a misreading of the paper shows when its answers are
//! compared with those of the proved program. It shares no code with it and
//! keeps its state in another way: one class and one value for each of the
//! 2,048 bits, a flag for each write-once field, the latch, whether a function
//! reset is under way, and one value for each bit of the window's registers.
//!
//! Register sheets, the time that a function reset takes, what undriven lanes
//! read and the Broadwell window are from paper `02-change-requests.md`, W-201,
//! W-202, W-206 and W-207, alone.
//!
//! Binaries:
//!
//! - `second [player|console]`: session lines in, answers out;
//! - `second sheet FILE`, `second show FILE`: a session on a register sheet's
//!   device, and the sheet as a table;
//! - `sessions SEED LINES [player|console]`: makes session text;
//! - `trace`: turns a recorded port trace into console lines;
//! - `compare`: runs another program on the same input and compares;
//! - `compare-sheets`: the same for two programs that take register sheets;
//! - `sentences`: holds what those two say on standard error to the words of
//!   docs/SHEETS.md;
//! - `one-by-one`: gives a program lines that it has to read one by one;
//! - `board`: the log of a board that was given console lines, faithful or with
//!   a fault.

#![forbid(unsafe_code)]

pub mod access;
pub mod board;
pub mod child;
pub mod comparison;
pub mod damage;
pub mod difference;
pub mod folder;
pub mod line;
pub mod made_sheet;
pub mod malform;
pub mod map;
pub mod plain_device;
pub mod player;
pub mod probe;
pub mod refusal;
pub mod rng;
pub mod session;
pub mod sheet;
pub mod sheet_comparison;
pub mod sheet_session;
pub mod trace;
pub mod twin;
pub mod walk;
pub mod window;
