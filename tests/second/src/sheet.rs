//! Register sheets: a plain device in a file (paper 02, W-201).
//!
//! The reader takes the contents apart first and then the bodies, each from
//! where the one before it ended, so that a body start that passed its check
//! isn't needed again.

use std::fmt;

use crate::map::BYTES;
use crate::refusal::Refusal;

/// A sheet has at most so many entries.
pub const MOST_ENTRIES: usize = 64;
/// A register has at most so many bytes.
pub const MOST_BYTES: usize = 8;
/// Bytes of an entry.
pub const ENTRY: usize = 4;
/// Bytes of a body for each byte of its register: default and three masks.
pub const PARTS: usize = 4;
/// Bytes of the longest sheet: all entries, and all 256 bytes listed.
pub const LONGEST: usize = 1 + ENTRY * MOST_ENTRIES + PARTS * BYTES;

/// A register: where it is, and the four parts of its body, as long as itself.
#[derive(Clone, Debug, Default, PartialEq, Eq)]
pub struct Register {
    /// Its config offset.
    pub at: usize,
    /// Its value after a platform reset.
    pub default: Vec<u8>,
    /// The bits that a guest write stores.
    pub guest: Vec<u8>,
    /// The bits that a host update may change.
    pub host: Vec<u8>,
    /// The bits that a function reset returns to default.
    pub reset: Vec<u8>,
}

impl Register {
    /// Its length in bytes.
    pub fn bytes(&self) -> usize {
        self.default.len()
    }

    /// The first byte after it.
    pub fn end(&self) -> usize {
        self.at + self.bytes()
    }

    /// The parts of its body, in the sheet's order.
    fn parts(&self) -> [&[u8]; PARTS] {
        [&self.default, &self.guest, &self.host, &self.reset]
    }

    /// The register at that offset with a body of its parts.
    fn of_body(at: usize, body: &[u8]) -> Register {
        let length = body.len() / PARTS;
        let part = |number: usize| body[number * length..][..length].to_vec();
        Register {
            at,
            default: part(0),
            guest: part(1),
            host: part(2),
            reset: part(3),
        }
    }

    /// What is wrong with the masks, if anything.
    fn mask_fault(&self) -> Option<BodyFault> {
        let (guest, host, reset) = (&self.guest, &self.host, &self.reset);
        if guest
            .iter()
            .zip(host)
            .any(|(guest, host)| guest & host != 0)
        {
            return Some(BodyFault::Shared);
        }
        if reset
            .iter()
            .zip(guest)
            .any(|(reset, guest)| reset & !guest != 0)
        {
            return Some(BodyFault::Reset);
        }
        None
    }
}

/// The registers that a sheet lists, in its order.
#[derive(Clone, Debug, PartialEq, Eq)]
pub struct Sheet {
    /// The registers.
    pub registers: Vec<Register>,
}

/// What is wrong with an entry.
#[derive(Clone, Copy, Debug, PartialEq, Eq)]
pub enum EntryFault {
    /// A length that isn't 1 to 8.
    Length,
    /// A register that starts before the one before it has ended.
    Order,
    /// A register that passes byte 255.
    End,
    /// A body start that isn't where the bodies before it end.
    Start,
}

/// What is wrong with a body.
#[derive(Clone, Copy, Debug, PartialEq, Eq)]
pub enum BodyFault {
    /// Guest and host masks share a bit.
    Shared,
    /// The reset mask has a bit outside the guest mask.
    Reset,
}

/// Why bytes are no sheet. Entries are counted from 1.
#[derive(Clone, Copy, Debug, PartialEq, Eq)]
pub enum Fault {
    /// No bytes.
    Empty,
    /// A number of entries that isn't 1 to 64.
    Count(u8),
    /// Contents cut short.
    ContentsCut,
    /// An entry that may not stand there.
    Entry(usize, EntryFault),
    /// A sheet that doesn't end with its last body.
    Total,
    /// A body with masks that don't go together.
    Body(usize, BodyFault),
}

impl Fault {
    /// The paper's refusal.
    pub fn refusal(self) -> Refusal {
        match self {
            Fault::Empty | Fault::ContentsCut | Fault::Total => Refusal::SheetLength,
            Fault::Count(_) | Fault::Entry(..) => Refusal::SheetContents,
            Fault::Body(..) => Refusal::SheetBody,
        }
    }

    /// The entry that the fault is in, itself or by its body, if it is in one.
    pub fn entry(self) -> Option<usize> {
        match self {
            Fault::Entry(number, _) | Fault::Body(number, _) => Some(number),
            _ => None,
        }
    }
}

impl fmt::Display for Fault {
    fn fmt(&self, f: &mut fmt::Formatter<'_>) -> fmt::Result {
        match self {
            Fault::Empty => write!(f, "the sheet is empty"),
            Fault::Count(count) => write!(f, "the sheet's number of entries is {count}"),
            Fault::ContentsCut => write!(f, "the sheet ends within its contents"),
            Fault::Entry(number, fault) => write!(f, "entry {number}: {fault}"),
            Fault::Total => write!(f, "the sheet does not end with its last body"),
            Fault::Body(number, fault) => write!(f, "the body of entry {number}: {fault}"),
        }
    }
}

impl fmt::Display for EntryFault {
    fn fmt(&self, f: &mut fmt::Formatter<'_>) -> fmt::Result {
        f.write_str(match self {
            EntryFault::Length => "the length is not 1 to 8",
            EntryFault::Order => "the register starts before the one before it has ended",
            EntryFault::End => "the register passes byte 255",
            EntryFault::Start => "the body does not start where the one before it ends",
        })
    }
}

impl fmt::Display for BodyFault {
    fn fmt(&self, f: &mut fmt::Formatter<'_>) -> fmt::Result {
        f.write_str(match self {
            BodyFault::Shared => "guest and host masks share a bit",
            BodyFault::Reset => "the reset mask is not inside the guest mask",
        })
    }
}

/// What an entry says of its register.
struct Listed {
    at: usize,
    length: usize,
}

impl Listed {
    fn end(&self) -> usize {
        self.at + self.length
    }

    /// The length of the register's body.
    fn body(&self) -> usize {
        self.length * PARTS
    }
}

/// The sheet of these bytes, or the first fault in the paper's order, which is
/// the same one for bytes of any number.
pub fn read(bytes: &[u8]) -> Result<Sheet, Fault> {
    let (count, rest) = bytes.split_first().ok_or(Fault::Empty)?;
    let entries = usize::from(*count);
    if entries == 0 || entries > MOST_ENTRIES {
        return Err(Fault::Count(*count));
    }
    if rest.len() < entries * ENTRY {
        return Err(Fault::ContentsCut);
    }
    let (contents, bodies) = rest.split_at(entries * ENTRY);
    let listed = read_contents(contents)?;
    if bodies.len() != listed.iter().map(Listed::body).sum::<usize>() {
        return Err(Fault::Total);
    }
    read_bodies(&listed, bodies)
}

/// The registers that the contents list, each entry held to those before it.
fn read_contents(contents: &[u8]) -> Result<Vec<Listed>, Fault> {
    let mut listed = Vec::new();
    let mut free = 0;
    let mut start = 1 + contents.len();
    for (index, entry) in contents.chunks(ENTRY).enumerate() {
        let register =
            read_entry(entry, free, start).map_err(|fault| Fault::Entry(index + 1, fault))?;
        free = register.end();
        start += register.body();
        listed.push(register);
    }
    Ok(listed)
}

/// The register of one entry, where bytes from `free` on are not listed yet
/// and the next body is due at `start`.
fn read_entry(entry: &[u8], free: usize, start: usize) -> Result<Listed, EntryFault> {
    let register = Listed {
        at: usize::from(entry[0]),
        length: usize::from(entry[1]),
    };
    if register.length == 0 || register.length > MOST_BYTES {
        return Err(EntryFault::Length);
    }
    if register.at < free {
        return Err(EntryFault::Order);
    }
    if register.end() > BYTES {
        return Err(EntryFault::End);
    }
    if usize::from(u16::from_le_bytes([entry[2], entry[3]])) != start {
        return Err(EntryFault::Start);
    }
    Ok(register)
}

/// The registers with their bodies, which lie one after the other.
fn read_bodies(listed: &[Listed], mut bodies: &[u8]) -> Result<Sheet, Fault> {
    let mut registers = Vec::new();
    for (index, entry) in listed.iter().enumerate() {
        let (body, rest) = bodies.split_at(entry.body());
        let register = Register::of_body(entry.at, body);
        if let Some(fault) = register.mask_fault() {
            return Err(Fault::Body(index + 1, fault));
        }
        registers.push(register);
        bodies = rest;
    }
    Ok(Sheet { registers })
}

/// The bytes of registers, contents first. They needn't make a good sheet.
pub fn lay_out(registers: &[Register]) -> Vec<u8> {
    let mut contents = vec![registers.len() as u8];
    let mut bodies = Vec::new();
    let first = 1 + registers.len() * ENTRY;
    for register in registers {
        let start = (first + bodies.len()) as u16;
        contents.extend([register.at as u8, register.bytes() as u8]);
        contents.extend(start.to_le_bytes());
        bodies.extend(register.parts().concat());
    }
    [contents, bodies].concat()
}

impl Sheet {
    /// The sheet as a table, one line a register.
    pub fn table(&self) -> String {
        let parts = ["Default", "Guest", "Host", "Reset"];
        let head = row("At", "Bytes", parts.map(String::from));
        let rows = self.registers.iter().map(|register| {
            let (at, bytes) = (format!("{:02X}", register.at), register.bytes().to_string());
            row(&at, &bytes, register.parts().map(number))
        });
        std::iter::once(head).chain(rows).collect()
    }
}

/// One line of the table.
fn row(at: &str, bytes: &str, parts: [String; PARTS]) -> String {
    let parts: String = parts.iter().map(|part| format!("  {part:>16}")).collect();
    format!("{at:>2}  {bytes:>5}{parts}\n")
}

/// A part of a body as one number: its last byte is the highest.
fn number(part: &[u8]) -> String {
    part.iter()
        .rev()
        .map(|byte| format!("{byte:02X}"))
        .collect()
}
