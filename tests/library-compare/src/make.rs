//! Made calls and made records.

use second::map;
use second::rng::Rng;
use second::twin::Twin;
use second::window::Register;

use crate::call::Call;
use crate::lent::{Lent, BUSY, LATCH, SIZE, WINDOW};

/// Dwords with write-once fields, the size code, bases, power state, the list
/// pointer's bit, and AFCTL.
const TELLING: &[u32] = &[
    0x04, 0x10, 0x14, 0x18, 0x18, 0x1C, 0x20, 0x2C, 0x2C, 0x60, 0x60, 0x7C, 0xA8, 0xD4, 0xE8,
];

/// A record of foreign making.
pub fn foreign(rng: &mut Rng) -> Lent {
    let mut record = [0; SIZE];
    match rng.below(8) {
        0 => {}
        1 => record.fill(0xFF),
        2 | 3 => {
            record[..256].copy_from_slice(&Twin::fresh().record().bytes);
            for _ in 0..rng.below(12) {
                record[rng.index(SIZE)] = rng.byte();
            }
        }
        _ => record.fill_with(|| rng.byte()),
    }
    if rng.one_in(4) {
        record[0x40..256].fill_with(|| 0x40 + rng.below(0xC0) as u8); // a list that seldom ends
    }
    if rng.one_in(2) {
        record[LATCH..LATCH + 4].copy_from_slice(&latch(rng).to_le_bytes());
    }
    if rng.one_in(2) {
        record[LATCH + 4..BUSY].fill_with(|| rng.byte());
    }
    if rng.one_in(2) {
        record[WINDOW..].fill_with(|| rng.byte());
    }
    record[BUSY] = match rng.below(6) {
        0 => 1,
        1 => rng.byte(),
        _ => 0,
    };
    Lent::new(record)
}

/// A latch that names the function, often with bits that a write would not store.
fn latch(rng: &mut Rng) -> u32 {
    let any = rng.dword() & 0xFC;
    let telling = rng.pick(TELLING);
    let offset = rng.pick(&[any, telling]);
    let ignored = rng.pick(&[0, 0, 0x7F00_0003, 0x5500_0001]);
    match rng.below(12) {
        0 => rng.dword(),
        1 => 0x0000_1000 | offset,
        2 => (0x8000_1000 | offset) ^ 1 << rng.below(24),
        _ => 0x8000_1000 | offset | ignored,
    }
}

fn offset(rng: &mut Rng) -> u32 {
    match rng.below(16) {
        0 => rng.dword(),
        1 => rng.below(260) as u32,
        2 => 0x100 | rng.dword() & 0xFC,
        3..=8 => rng.below(64) as u32 * 4,
        _ => rng.pick(TELLING),
    }
}

fn lanes(rng: &mut Rng) -> u32 {
    match rng.below(20) {
        0 => rng.dword(),
        1 => rng.below(18) as u32,
        2..=8 => 0xF,
        _ => rng.below(16) as u32,
    }
}

/// A number that fits a field of so many bits but once in a while.
fn mostly_below(rng: &mut Rng, bits: u32, number: u32) -> u32 {
    let fits = number & ((1 << bits) - 1);
    match rng.below(24) {
        0 => 1 << bits | fits,
        1 => fits | 1 << (bits + rng.below(u64::from(32 - bits)) as u32),
        _ => fits,
    }
}

fn port(rng: &mut Rng) -> u32 {
    let any = rng.dword();
    let near = 0xCF4 + rng.below(16) as u32;
    let port = rng.pick(&[0xCF8, 0xCFC, 0xCFC, near, near, any]);
    mostly_below(rng, 16, port)
}

fn width(rng: &mut Rng) -> u32 {
    let any = rng.dword();
    let few = rng.below(6) as u32;
    rng.pick(&[1, 2, 4, 4, 4, few, any])
}

/// Some of the host's bits, or all, or one bit more, or any below 2 to the `bits`.
fn host_bits(rng: &mut Rng, host: u32, bits: u32) -> u32 {
    match rng.below(6) {
        0 => rng.dword() & u32::MAX >> (32 - bits),
        1 => host | 1 << rng.below(bits.into()),
        2 => host,
        _ => host & rng.dword(),
    }
}

/// A mask for a host update of a byte.
fn mask(rng: &mut Rng, at: u32) -> u32 {
    let host = (0..8)
        .map(|place| 1u8 << place)
        .filter(|bit| at < 256 && map::paper().host_may_change(at as usize, *bit))
        .sum::<u8>();
    let mask = host_bits(rng, host.into(), 8);
    mostly_below(rng, 8, mask)
}

/// The bits that a completion may have, and those of a fault word.
const REQUESTS: u32 = 0xF;
const FAULT_WORD: u32 = 0x77FE;

/// A register's offset in the window, or one near it, unaligned, above the
/// window, or any.
fn window_offset(rng: &mut Rng) -> u32 {
    let register = rng.pick(&Register::ALL).offset();
    match rng.below(16) {
        0 => rng.dword(),
        1 => rng.dword() & 0x3F_FFFC,
        2 => register ^ 1 << rng.below(32),
        3 => register - 8 + rng.below(16) as u32,
        _ => register,
    }
}

/// A mask for an update at that offset, now and then by another register's.
fn mirror_mask(rng: &mut Rng, at: u32) -> u32 {
    let register = match rng.below(6) {
        0 => Some(rng.pick(&Register::ALL)),
        _ => Register::at(at),
    };
    host_bits(rng, register.map_or(0, Register::update_mask), 32)
}

/// A memory address in or near a window, or any.
fn address(rng: &mut Rng, twin: &Twin) -> u64 {
    let base = rng.pick(&[
        twin.translation_base(),
        twin.aperture_base(),
        rng.clone().qword(),
    ]);
    let size = 1u64 << rng.pick(&[21, 22, 26, 27, 28, 29, 30, 63]);
    match rng.below(5) {
        0 => base.wrapping_add(size),
        1 => base.wrapping_sub(1),
        2 => base.wrapping_add(size - 1),
        3 => base ^ size,
        _ => base.wrapping_add(rng.qword() % size),
    }
}

fn claimed_port(rng: &mut Rng, twin: &Twin) -> u32 {
    let base = twin.io_base() as u32 & 0xFFFF;
    let port = match rng.below(4) {
        0 => rng.dword(),
        1 => base ^ 1 << rng.below(8),
        _ => base + rng.below(66) as u32,
    };
    mostly_below(rng, 16, port)
}

/// Dwords to probe, among them those of each kind with few bits that count.
fn probed(rng: &mut Rng) -> (u32, u32) {
    let (low, high) = (rng.telling_dword(), rng.telling_dword());
    let kind = rng.below(8) as u32;
    let low = rng.pick(&[low, low & !0xF | kind, kind, kind | 8]);
    (low, high)
}

/// Bytes to walk over: the record's, any, or a list that seldom ends, and now
/// and then of another length.
fn walked(rng: &mut Rng, twin: &Twin) -> Vec<u8> {
    let mut bytes = twin.record().bytes.to_vec();
    match rng.below(4) {
        0 => bytes.fill_with(|| rng.byte()),
        1 => bytes.fill_with(|| 0x40 + rng.below(0xC0) as u8),
        2 => bytes[0x40 + rng.index(0xC0)] = rng.byte(),
        _ => {}
    }
    if rng.one_in(6) {
        bytes.resize(rng.index(600), 0x50);
    }
    bytes
}

/// The next call.
pub fn call(rng: &mut Rng, twin: &Twin) -> Call {
    match rng.below(20) {
        0..=3 => Call::Write(offset(rng), lanes(rng), rng.telling_dword()),
        4..=5 => Call::WriteByValue(offset(rng), lanes(rng), rng.telling_dword()),
        6 => Call::Read(offset(rng), lanes(rng)),
        7 => {
            let (low, high) = probed(rng);
            Call::Probe(low, high)
        }
        8 => {
            let bytes = walked(rng, twin);
            Call::Walk(bytes, wanted(rng))
        }
        9 if rng.one_in(20) => Call::PlatformReset,
        _ => through_the_door(rng, twin),
    }
}

fn wanted(rng: &mut Rng) -> u8 {
    let any = rng.byte();
    rng.pick(&[0x01, 0x05, 0x09, 0x13, any])
}

fn through_the_door(rng: &mut Rng, twin: &Twin) -> Call {
    let spare = rng.dword();
    match rng.below(62) {
        0 if rng.one_in(5) => Call::Do(0, spare, rng.dword(), rng.dword()),
        0..=6 => Call::Do(1, offset(rng), lanes(rng), rng.telling_dword()),
        7..=9 => Call::Do(2, offset(rng), lanes(rng), spare),
        10..=14 => {
            let at = match rng.below(12) {
                0 => rng.dword(),
                1 => 0x100 + rng.below(4) as u32,
                _ => rng.below(256) as u32,
            };
            let (mask, to) = (mask(rng, at), rng.dword());
            Call::Do(3, at, mask, mostly_below(rng, 8, to))
        }
        15..=17 => Call::Do(4, 0xCF8, 4, latch(rng)),
        18..=21 => Call::Do(4, port(rng), width(rng), rng.telling_dword()),
        22..=25 => Call::Do(5, port(rng), width(rng), spare),
        26..=30 => {
            let address = address(rng, twin);
            Call::Do(6, address as u32, (address >> 32) as u32, spare)
        }
        31..=33 => Call::Do(7, claimed_port(rng, twin), rng.dword(), spare),
        34..=35 => {
            let (low, high) = probed(rng);
            Call::Do(8, low, high, spare)
        }
        36..=37 => {
            let id = wanted(rng).into();
            Call::Do(9, mostly_below(rng, 8, id), rng.dword(), spare)
        }
        38..=39 => Call::Do(10, spare, rng.dword(), rng.dword()),
        40..=45 => Call::Do(11, window_offset(rng), lanes(rng), rng.telling_dword()),
        46..=48 => Call::Do(12, window_offset(rng), lanes(rng), spare),
        49..=50 => Call::Do(13, host_bits(rng, REQUESTS, 32), rng.dword(), spare),
        51..=53 => Call::Do(14, host_bits(rng, FAULT_WORD, 32), rng.dword(), spare),
        54..=55 => Call::Do(15, rng.telling_dword(), rng.dword(), spare),
        56..=59 => {
            let at = window_offset(rng);
            Call::Do(16, at, mirror_mask(rng, at), rng.telling_dword())
        }
        60 => {
            let above = rng.pick(&[3, 300]);
            let op = 17 + rng.below(above) as u32;
            Call::Do(op, spare, rng.dword(), rng.dword())
        }
        _ => Call::Do(rng.telling_dword(), spare, rng.dword(), rng.dword()),
    }
}
