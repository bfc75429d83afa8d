//! The size probe of a base register.

use crate::refusal::Refusal;

/// What kind of range a base register asks for.
#[derive(Clone, Copy, Debug, PartialEq, Eq)]
pub enum Kind {
    /// I/O ports.
    Io,
    /// 32-bit memory.
    Mem32,
    /// 64-bit memory.
    Mem64,
}

/// A range of 2 to the `exponent` bytes.
#[derive(Clone, Copy, Debug, PartialEq, Eq)]
pub struct Range {
    /// The kind of range.
    pub kind: Kind,
    /// The size is 2 to this.
    pub exponent: u32,
}

/// The range named by the low and high dword read back after ones were written.
pub fn probe(low: u32, high: u32) -> Result<Range, Refusal> {
    let (kind, lowest_counting, counting_bits) = shape(low)?;
    let both = u64::from(high) << 32 | u64::from(low);
    (lowest_counting..counting_bits)
        .find(|place| both >> place & 1 == 1)
        .map(|exponent| Range { kind, exponent })
        .ok_or(Refusal::NoRange)
}

/// The kind, the lowest bit that counts, and the bit just above the highest.
fn shape(low: u32) -> Result<(Kind, u32, u32), Refusal> {
    match low % 8 {
        1 | 3 | 5 | 7 => Ok((Kind::Io, 2, 32)),
        0 => Ok((Kind::Mem32, 4, 32)),
        4 => Ok((Kind::Mem64, 4, 64)),
        _ => Err(Refusal::NoRange),
    }
}
