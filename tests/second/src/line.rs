//! Session lines and their answers.

use std::fmt;

use crate::probe::{self, Kind, Range};
use crate::refusal::Refusal;
use crate::twin::{Claim, Twin};
use crate::walk::Walk;

/// Which lines are of a known form.
#[derive(Clone, Copy, Debug, PartialEq, Eq)]
pub enum Mode {
    /// The paper's session player.
    Player,
    /// The player's lines, and ports, claims, probe, walk and the window.
    Console,
    /// The player's lines but for the end signal, and the function reset of a
    /// sheet's device.
    Sheet,
}

impl Mode {
    /// The twin's mode of that name.
    pub fn named(name: &str) -> Option<Mode> {
        match name {
            "player" => Some(Mode::Player),
            "console" => Some(Mode::Console),
            _ => None,
        }
    }
}

/// The length in bytes of the longest line that is of a known form.
pub const LONGEST_LINE: usize = "Y oooooo mmmmmmmm vvvvvvvv".len();

/// A line of a known form.
#[derive(Clone, Copy, Debug, PartialEq, Eq)]
pub enum Command {
    /// `W oo l vvvvvvvv`: a guest write.
    Write { offset: u32, lanes: u32, value: u32 },
    /// `R oo l`: a guest read.
    Read { offset: u32, lanes: u32 },
    /// `H oo mm vv`: a host update.
    Host { offset: u32, mask: u8, value: u8 },
    /// `P`: a platform reset.
    PlatformReset,
    /// `E`: the end signal of a function reset.
    End,
    /// `Z`: the function reset of a sheet's device.
    FunctionReset,
    /// `O pppp w vvvvvvvv`: a port write.
    PortWrite { port: u16, width: u32, value: u32 },
    /// `I pppp w`: a port read.
    PortRead { port: u16, width: u32 },
    /// `A aaaaaaaaaaaaaaaa`: the claim of a memory address.
    ClaimMemory { address: u64 },
    /// `N pppp`: the claim of an I/O port.
    ClaimPort { port: u16 },
    /// `S llllllll hhhhhhhh`: a size probe.
    Probe { low: u32, high: u32 },
    /// `K ii`: a capability walk.
    Walk { wanted: u8 },
    /// `V oooooo l vvvvvvvv`: a guest write in the window.
    WindowWrite { offset: u32, lanes: u32, value: u32 },
    /// `U oooooo l`: a guest read in the window.
    WindowRead { offset: u32, lanes: u32 },
    /// `C mmmmmmmm`: the completion of requests.
    Complete { mask: u32 },
    /// `F vvvvvvvv`: a fault word.
    Fault { word: u32 },
    /// `T nnnnnnnn`: an addition to the cycle sum.
    AddCycles { count: u32 },
    /// `Y oooooo mmmmmmmm vvvvvvvv`: a device update of a mirror.
    MirrorUpdate { offset: u32, mask: u32, value: u32 },
}

/// The numbers of hex digits in the fields after a command's letter.
fn digits(letter: &[u8], mode: Mode) -> Option<&'static [usize]> {
    match (letter, mode) {
        (b"W", _) => Some(&[2, 1, 8]),
        (b"R", _) => Some(&[2, 1]),
        (b"H", _) => Some(&[2, 2, 2]),
        (b"P", _) => Some(&[]),
        (b"E", Mode::Player | Mode::Console) => Some(&[]),
        (b"Z", Mode::Sheet) => Some(&[]),
        (b"O", Mode::Console) => Some(&[4, 1, 8]),
        (b"I", Mode::Console) => Some(&[4, 1]),
        (b"A", Mode::Console) => Some(&[16]),
        (b"N", Mode::Console) => Some(&[4]),
        (b"S", Mode::Console) => Some(&[8, 8]),
        (b"K", Mode::Console) => Some(&[2]),
        (b"V", Mode::Console) => Some(&[6, 1, 8]),
        (b"U", Mode::Console) => Some(&[6, 1]),
        (b"C" | b"F" | b"T", Mode::Console) => Some(&[8]),
        (b"Y", Mode::Console) => Some(&[6, 8, 8]),
        _ => None,
    }
}

/// The value of one upper-case hex digit.
fn digit(byte: u8) -> Option<u64> {
    match byte {
        b'0'..=b'9' => Some(u64::from(byte - b'0')),
        b'A'..=b'F' => Some(u64::from(byte - b'A') + 10),
        _ => None,
    }
}

/// The value of a field of exactly `width` digits.
fn number(field: &[u8], width: usize) -> Option<u64> {
    if field.len() != width {
        return None;
    }
    field
        .iter()
        .try_fold(0, |value, byte| Some(value * 16 + digit(*byte)?))
}

/// The letter and the fields of a line, if their widths fit the letter.
fn fields(line: &[u8], mode: Mode) -> Option<(u8, Vec<u64>)> {
    let mut parts = line.split(|byte| *byte == b' ');
    let letter = parts.next()?;
    let widths = digits(letter, mode)?;
    let parts: Vec<&[u8]> = parts.collect();
    if parts.len() != widths.len() {
        return None;
    }
    let numbers: Option<Vec<u64>> = parts
        .iter()
        .zip(widths)
        .map(|(part, width)| number(part, *width))
        .collect();
    Some((letter[0], numbers?))
}

/// The command of a line (without its LF), if it is of a known form.
pub fn parse(line: &[u8], mode: Mode) -> Option<Command> {
    if line.len() > LONGEST_LINE {
        return None;
    }
    let (letter, numbers) = fields(line, mode)?;
    command(letter, &numbers)
}

/// The command of a letter with its numbers; their widths make them fit.
fn command(letter: u8, numbers: &[u64]) -> Option<Command> {
    let command = match (letter, numbers) {
        (b'W', &[offset, lanes, value]) => Command::Write {
            offset: offset as u32,
            lanes: lanes as u32,
            value: value as u32,
        },
        (b'R', &[offset, lanes]) => Command::Read {
            offset: offset as u32,
            lanes: lanes as u32,
        },
        (b'H', &[offset, mask, value]) => Command::Host {
            offset: offset as u32,
            mask: mask as u8,
            value: value as u8,
        },
        (b'P', &[]) => Command::PlatformReset,
        (b'E', &[]) => Command::End,
        (b'Z', &[]) => Command::FunctionReset,
        (b'O', &[port, width, value]) => Command::PortWrite {
            port: port as u16,
            width: width as u32,
            value: value as u32,
        },
        (b'I', &[port, width]) => Command::PortRead {
            port: port as u16,
            width: width as u32,
        },
        (b'A', &[address]) => Command::ClaimMemory { address },
        (b'N', &[port]) => Command::ClaimPort { port: port as u16 },
        (b'S', &[low, high]) => Command::Probe {
            low: low as u32,
            high: high as u32,
        },
        (b'K', &[wanted]) => Command::Walk {
            wanted: wanted as u8,
        },
        (b'V', &[offset, lanes, value]) => Command::WindowWrite {
            offset: offset as u32,
            lanes: lanes as u32,
            value: value as u32,
        },
        (b'U', &[offset, lanes]) => Command::WindowRead {
            offset: offset as u32,
            lanes: lanes as u32,
        },
        (b'C', &[mask]) => Command::Complete { mask: mask as u32 },
        (b'F', &[word]) => Command::Fault { word: word as u32 },
        (b'T', &[count]) => Command::AddCycles {
            count: count as u32,
        },
        (b'Y', &[offset, mask, value]) => Command::MirrorUpdate {
            offset: offset as u32,
            mask: mask as u32,
            value: value as u32,
        },
        _ => return None,
    };
    Some(command)
}

/// The answer to a line.
#[derive(Clone, Copy, Debug, PartialEq, Eq)]
pub enum Answer {
    /// Accepted, with nothing to tell.
    Done,
    /// A read value.
    Value(u32),
    /// Which window claims.
    Claim(Claim),
    /// The range probed.
    Range(Range),
    /// How a walk ended.
    Walk(Walk),
    /// Refused.
    Refused(Refusal),
}

impl From<()> for Answer {
    fn from((): ()) -> Answer {
        Answer::Done
    }
}

impl From<u32> for Answer {
    fn from(value: u32) -> Answer {
        Answer::Value(value)
    }
}

impl From<Range> for Answer {
    fn from(range: Range) -> Answer {
        Answer::Range(range)
    }
}

impl From<Walk> for Answer {
    fn from(walk: Walk) -> Answer {
        Answer::Walk(walk)
    }
}

impl<T: Into<Answer>> From<Result<T, Refusal>> for Answer {
    fn from(result: Result<T, Refusal>) -> Answer {
        match result {
            Ok(value) => value.into(),
            Err(refusal) => Answer::Refused(refusal),
        }
    }
}

impl fmt::Display for Answer {
    fn fmt(&self, f: &mut fmt::Formatter<'_>) -> fmt::Result {
        match self {
            Answer::Done => write!(f, "OK"),
            Answer::Value(value) => write!(f, "OK {value:08X}"),
            Answer::Claim(claim) => show_claim(*claim, f),
            Answer::Range(range) => show_range(*range, f),
            Answer::Walk(walk) => show_walk(*walk, f),
            Answer::Refused(refusal) => write!(f, "NO {}", refusal.number()),
        }
    }
}

fn show_claim(claim: Claim, f: &mut fmt::Formatter<'_>) -> fmt::Result {
    match claim {
        Claim::Translation(offset) => write!(f, "OK TRANSLATION {offset:08X}"),
        Claim::Aperture(offset) => write!(f, "OK APERTURE {offset:08X}"),
        Claim::Io(offset) => write!(f, "OK IO {offset:08X}"),
        Claim::None => write!(f, "OK NONE"),
    }
}

fn show_range(range: Range, f: &mut fmt::Formatter<'_>) -> fmt::Result {
    let kind = match range.kind {
        Kind::Io => "IO",
        Kind::Mem32 => "MEM32",
        Kind::Mem64 => "MEM64",
    };
    write!(f, "OK {kind} {:02X}", range.exponent)
}

fn show_walk(walk: Walk, f: &mut fmt::Formatter<'_>) -> fmt::Result {
    match walk {
        Walk::Found { offset, count } => write!(f, "OK FOUND {offset:02X} {count:02X}"),
        Walk::Absent { count } => write!(f, "OK ABSENT {count:02X}"),
        Walk::Pointer { count } => write!(f, "NO 10 {count:02X}"),
        Walk::Endless { count } => write!(f, "NO 11 {count:02X}"),
    }
}

/// Carries out a line (without its LF) on the twin.
pub fn answer(twin: &mut Twin, line: &[u8], mode: Mode) -> Answer {
    match parse(line, mode) {
        Some(command) => perform(twin, command),
        None => Answer::Refused(Refusal::Line),
    }
}

/// Carries out a command on the twin.
pub fn perform(twin: &mut Twin, command: Command) -> Answer {
    match command {
        Command::Write {
            offset,
            lanes,
            value,
        } => twin.guest_write(offset, lanes, value).into(),
        Command::Read { offset, lanes } => twin.guest_read(offset, lanes).into(),
        Command::Host {
            offset,
            mask,
            value,
        } => twin.host_update(offset, mask, value).into(),
        Command::PlatformReset => {
            twin.platform_reset();
            Answer::Done
        }
        Command::End => {
            twin.end_signal();
            Answer::Done
        }
        Command::PortWrite { port, width, value } => twin.port_write(port, width, value).into(),
        Command::PortRead { port, width } => twin.port_read(port, width).into(),
        Command::ClaimMemory { address } => Answer::Claim(twin.claim_memory(address)),
        Command::ClaimPort { port } => Answer::Claim(twin.claim_port(port)),
        Command::Probe { low, high } => probe::probe(low, high).into(),
        Command::Walk { wanted } => twin.walk(wanted).into(),
        Command::WindowWrite {
            offset,
            lanes,
            value,
        } => twin.window_write(offset, lanes, value).into(),
        Command::WindowRead { offset, lanes } => twin.window_read(offset, lanes).into(),
        Command::Complete { mask } => twin.complete(mask).into(),
        Command::Fault { word } => twin.fault(word).into(),
        Command::AddCycles { count } => {
            twin.add_cycles(count);
            Answer::Done
        }
        Command::MirrorUpdate {
            offset,
            mask,
            value,
        } => twin.mirror_update(offset, mask, value).into(),
        // The twin's function reset is a write to AFCTL and an end signal; its
        // modes know no such line.
        Command::FunctionReset => Answer::Refused(Refusal::Line),
    }
}
