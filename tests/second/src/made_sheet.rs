//! Made register sheets: good ones of every size and with masks of all kinds.

use crate::map::BYTES;
use crate::rng::Rng;
use crate::sheet::{Register, Sheet, MOST_BYTES, MOST_ENTRIES};

/// What a made sheet looks like.
#[derive(Clone, Copy, Debug, PartialEq, Eq)]
pub enum Shape {
    /// Any number of registers of any lengths.
    Any,
    /// A few registers.
    Few,
    /// One register.
    One,
    /// Registers of one byte.
    Bytes,
    /// As many registers as there may be.
    Most,
    /// Every byte listed.
    Full,
    /// Every byte listed by registers of eight.
    Eights,
    /// As many registers as there may be and every byte listed.
    Longest,
}

impl Shape {
    /// All shapes.
    pub const ALL: [Shape; 8] = [
        Shape::Any,
        Shape::Few,
        Shape::One,
        Shape::Bytes,
        Shape::Most,
        Shape::Full,
        Shape::Eights,
        Shape::Longest,
    ];

    /// The shape in words.
    pub fn name(self) -> &'static str {
        match self {
            Shape::Any => "good, of any shape",
            Shape::Few => "good, a few registers",
            Shape::One => "good, one register",
            Shape::Bytes => "good, registers of one byte",
            Shape::Most => "good, 64 registers",
            Shape::Full => "good, every byte listed",
            Shape::Eights => "good, every byte listed by eights",
            Shape::Longest => "good, of 1281 bytes",
        }
    }

    /// How many registers, and how many bytes they list together.
    fn sizes(self, rng: &mut Rng) -> (usize, usize) {
        let fewest_of_eight = BYTES / MOST_BYTES;
        let count = match self {
            Shape::Any => between(rng, 1, MOST_ENTRIES),
            Shape::Few => between(rng, 2, 6),
            Shape::One => 1,
            Shape::Bytes => between(rng, 1, MOST_ENTRIES),
            Shape::Most | Shape::Longest => MOST_ENTRIES,
            Shape::Full => between(rng, fewest_of_eight, MOST_ENTRIES),
            Shape::Eights => fewest_of_eight,
        };
        let covered = match self {
            Shape::Bytes => count,
            Shape::Full | Shape::Eights | Shape::Longest => BYTES,
            _ => between(rng, count, BYTES.min(count * MOST_BYTES)),
        };
        (count, covered)
    }
}

/// A number from `first` to `last`.
pub(crate) fn between(rng: &mut Rng, first: usize, last: usize) -> usize {
    first + rng.index(last - first + 1)
}

/// A good sheet of that shape.
pub fn made(rng: &mut Rng, shape: Shape) -> Sheet {
    let (count, covered) = shape.sizes(rng);
    Sheet {
        registers: spread(rng, count, covered),
    }
}

/// A good sheet of any shape.
pub fn any(rng: &mut Rng) -> Sheet {
    let shape = rng.pick(&Shape::ALL);
    made(rng, shape)
}

/// So many registers in ascending order that list so many bytes together:
/// at least one each, and at most eight.
pub(crate) fn spread(rng: &mut Rng, count: usize, covered: usize) -> Vec<Register> {
    let lengths = lengths(rng, count, covered);
    let mut gaps: Vec<usize> = (0..count)
        .map(|_| between(rng, 0, BYTES - covered))
        .collect();
    gaps.sort_unstable();
    if rng.one_in(4) {
        // The last register then ends with byte 255.
        gaps[count - 1] = BYTES - covered;
    }
    let mut before = 0;
    let mut registers = Vec::new();
    for (gap, length) in gaps.into_iter().zip(lengths) {
        registers.push(register(rng, gap + before, length));
        before += length;
    }
    registers
}

/// So many lengths with that sum.
fn lengths(rng: &mut Rng, count: usize, sum: usize) -> Vec<usize> {
    let mut lengths = vec![1; count];
    for _ in count..sum {
        let short: Vec<usize> = (0..count)
            .filter(|index| lengths[*index] < MOST_BYTES)
            .collect();
        lengths[rng.pick(&short)] += 1;
    }
    lengths
}

/// A register with any body whose masks go together.
pub(crate) fn register(rng: &mut Rng, at: usize, bytes: usize) -> Register {
    let mut register = Register {
        at,
        ..Register::default()
    };
    let kind = rng.below(8);
    for _ in 0..bytes {
        let (guest, host) = masks(rng, kind);
        register.default.push(telling_byte(rng));
        register.guest.push(guest);
        register.host.push(host);
        register.reset.push(guest & telling_byte(rng));
    }
    register
}

/// Guest and host masks of a byte in a register of that kind: read-only, all
/// the guest's, all the host's, or mixed, with or without read-only bits.
fn masks(rng: &mut Rng, kind: u64) -> (u8, u8) {
    let (guest, others) = (telling_byte(rng), telling_byte(rng));
    match kind {
        0 => (0, 0),
        1 => (0xFF, 0),
        2 => (0, 0xFF),
        3 => (guest, 0),
        4 => (0, guest),
        5 => (guest, !guest),
        _ => (guest, others & !guest),
    }
}

/// All bits, none, one, all but one, or any.
fn telling_byte(rng: &mut Rng) -> u8 {
    let place = rng.below(8);
    match rng.below(8) {
        0 => 0,
        1 => 0xFF,
        2 => 1 << place,
        3 => !(1 << place),
        _ => rng.byte(),
    }
}
