//! A call of the library, and what the second program answers to it.

use second::probe::{self, Kind, Range};
use second::refusal::Refusal;
use second::twin::{Claim, Twin};
use second::walk::{self, Walk};

/// A call of one of the exported functions.
#[derive(Clone, Debug, PartialEq, Eq)]
pub enum Call {
    /// `twin_platform_reset`
    PlatformReset,
    /// `twin_write`: offset, lanes, value
    Write(u32, u32, u32),
    /// `twin_write_by_value`: offset, lanes, value
    WriteByValue(u32, u32, u32),
    /// `twin_read`: offset, lanes
    Read(u32, u32),
    /// `twin_do`: operation, three arguments
    Do(u32, u32, u32, u32),
    /// `twin_probe`: low, high
    Probe(u32, u32),
    /// `twin_walk`: bytes, wanted ID
    Walk(Vec<u8>, u8),
}

/// The second program's answer, packed as the library packs it.
pub fn answer(twin: &mut Twin, call: &Call) -> u64 {
    match call {
        Call::PlatformReset => {
            twin.platform_reset();
            0
        }
        Call::Write(offset, lanes, value) | Call::WriteByValue(offset, lanes, value) => {
            done(twin.guest_write(*offset, *lanes, *value))
        }
        Call::Read(offset, lanes) => value(twin.guest_read(*offset, *lanes)),
        Call::Do(op, a, b, c) => door(twin, *op, *a, *b, *c).unwrap_or_else(refused),
        Call::Probe(low, high) => range(probe::probe(*low, *high)),
        Call::Walk(bytes, wanted) => ended(walk::walk(bytes, *wanted)),
    }
}

/// The door; an argument above its greatest value is a line of no form.
fn door(twin: &mut Twin, op: u32, a: u32, b: u32, c: u32) -> Result<u64, Refusal> {
    let answer = match op {
        0 => {
            twin.platform_reset();
            0
        }
        1 => done(twin.guest_write(a, b, c)),
        2 => value(twin.guest_read(a, b)),
        3 => {
            let (mask, to) = (byte(b)?, byte(c)?);
            done(twin.host_update(a, mask, to))
        }
        4 => done(twin.port_write(port(a)?, b, c)),
        5 => value(twin.port_read(port(a)?, b)),
        6 => claim(twin.claim_memory(u64::from(b) << 32 | u64::from(a))),
        7 => claim(twin.claim_port(port(a)?)),
        8 => range(probe::probe(a, b)),
        9 => ended(twin.walk(byte(a)?)),
        10 => {
            twin.end_signal();
            0
        }
        11 => done(twin.window_write(a, b, c)),
        12 => value(twin.window_read(a, b)),
        13 => done(twin.complete(a)),
        14 => done(twin.fault(a)),
        15 => {
            twin.add_cycles(a);
            0
        }
        16 => done(twin.mirror_update(a, b, c)),
        _ => return Err(Refusal::Line),
    };
    Ok(answer)
}

fn byte(number: u32) -> Result<u8, Refusal> {
    u8::try_from(number).map_err(|_| Refusal::Line)
}

fn port(number: u32) -> Result<u16, Refusal> {
    u16::try_from(number).map_err(|_| Refusal::Line)
}

fn packed(number: u32, high: u32, low: u32) -> u64 {
    u64::from(number) << 48 | u64::from(high) << 32 | u64::from(low)
}

fn refused(refusal: Refusal) -> u64 {
    packed(refusal.number(), 0, 0)
}

fn done(result: Result<(), Refusal>) -> u64 {
    result.map_or_else(refused, |()| 0)
}

fn value(result: Result<u32, Refusal>) -> u64 {
    result.map_or_else(refused, u64::from)
}

fn claim(claim: Claim) -> u64 {
    match claim {
        Claim::None => 0,
        Claim::Translation(offset) => packed(0, 1, offset),
        Claim::Aperture(offset) => packed(0, 2, offset),
        Claim::Io(offset) => packed(0, 3, offset),
    }
}

fn range(result: Result<Range, Refusal>) -> u64 {
    result.map_or_else(refused, |range| {
        let kind = match range.kind {
            Kind::Io => 1,
            Kind::Mem32 => 2,
            Kind::Mem64 => 3,
        };
        packed(0, kind, range.exponent)
    })
}

fn ended(result: Result<Walk, Refusal>) -> u64 {
    result.map_or_else(refused, |walk| match walk {
        Walk::Found { offset, count } => packed(0, 0x100 + u32::from(offset), count.into()),
        Walk::Absent { count } => packed(0, 0, count.into()),
        Walk::Pointer { count } => packed(10, 0, count.into()),
        Walk::Endless { count } => packed(11, 0, count.into()),
    })
}
