//! Damaged register sheets: every way in which bytes can fail to be a sheet,
//! with the refusal that is meant by each.
//!
//! Where it can be, all else about a damaged sheet is good, so that a reader
//! that lacks one test takes it. Others have two faults, so that the order of
//! the tests shows.

use crate::made_sheet::{any, between, made, register, spread, Shape};
use crate::map::BYTES;
use crate::rng::Rng;
use crate::sheet::{lay_out, Register, Sheet, ENTRY, LONGEST, MOST_BYTES, MOST_ENTRIES, PARTS};

/// What a made sheet is to be, good or damaged.
#[derive(Clone, Copy, Debug, PartialEq, Eq)]
pub enum Meant {
    /// Accepted.
    Good,
    /// Refused with the paper's number, and for a fault in an entry or in its
    /// body with that entry, from 1.
    Refused { number: u32, entry: Option<usize> },
    /// As chance has it.
    Chance,
}

/// Bytes that may be no sheet.
#[derive(Clone, Debug, PartialEq, Eq)]
pub struct Damaged {
    /// The bytes.
    pub bytes: Vec<u8>,
    /// What is meant by them.
    pub meant: Meant,
}

/// A kind of damage by its name.
pub type Kind = (&'static str, fn(&mut Rng) -> Damaged);

/// All kinds of damage, by what they are done to.
pub fn kinds() -> impl Iterator<Item = &'static Kind> {
    [
        FIRST_BYTE,
        CONTENTS,
        BODY_STARTS,
        LENGTHS,
        MASKS,
        TWO_FAULTS,
        CHANCE,
    ]
    .into_iter()
    .flatten()
}

const FIRST_BYTE: &[Kind] = &[
    ("empty", |_| length_fault(Vec::new())),
    ("no entry, and nothing else", |_| count_fault(vec![0])),
    ("no entry, and a sheet's rest", |rng| with_count(rng, 0)),
    ("65 entries, otherwise good", |rng| too_many(rng, 65)),
    ("many entries, otherwise good", |rng| {
        let count = between(rng, 66, 160);
        too_many(rng, count)
    }),
    ("more entries than are there", |rng| {
        let count = between(rng, MOST_ENTRIES + 1, 255);
        with_count(rng, count)
    }),
    ("255 entries in one byte", |_| count_fault(vec![255])),
];

const CONTENTS: &[Kind] = &[
    ("a length of 0, otherwise good", |rng| with_length(rng, 0)),
    ("a length of 9, otherwise good", |rng| with_length(rng, 9)),
    ("a length of 255, otherwise good", |rng| {
        with_length(rng, 255)
    }),
    ("any length above 8, otherwise good", |rng| {
        let length = between(rng, MOST_BYTES + 1, 255);
        with_length(rng, length)
    }),
    ("a length out of range, bodies left", length_poked),
    ("another length, bodies left", other_length),
    ("the offset before once more", same_offset),
    ("an overlap by one byte", |rng| overlap(rng, 1)),
    ("any overlap", |rng| {
        let by = between(rng, 2, MOST_BYTES);
        overlap(rng, by)
    }),
    ("two registers exchanged", exchanged_registers),
    ("byte 255 passed by one", |rng| past_the_end(rng, 1)),
    ("byte 255 passed", |rng| {
        let by = between(rng, 2, MOST_BYTES - 1);
        past_the_end(rng, by)
    }),
];

const BODY_STARTS: &[Kind] = &[
    ("a body start one more", |rng| start_moved(rng, 1)),
    ("a body start one less", |rng| start_moved(rng, -1)),
    ("a body start with another high byte", other_high_byte),
    ("a body start with its bytes exchanged", exchanged_bytes),
    ("a gap after the contents", |rng| gap(rng, |_, _| 0)),
    ("a gap between bodies", |rng| {
        gap(rng, |rng, count| between(rng, 1, count - 1))
    }),
    ("a body that starts in the contents", body_in_contents),
    ("one body for two entries", shared_body),
    ("two bodies exchanged", exchanged_bodies),
];

const LENGTHS: &[Kind] = &[
    ("nothing but the number of entries", |rng| {
        cut(rng, |_, _| 1)
    }),
    ("contents cut anywhere", |rng| {
        cut(rng, |rng, sheet| between(rng, 1, contents(sheet) - 1))
    }),
    ("contents cut by one byte", |rng| {
        cut(rng, |_, sheet| contents(sheet) - 1)
    }),
    ("no bodies", |rng| cut(rng, |_, sheet| contents(sheet))),
    ("the last body left out", |rng| {
        cut(rng, |_, sheet| body(sheet, sheet.registers.len() - 1))
    }),
    ("bodies cut at a body's start", |rng| {
        cut(rng, |rng, sheet| {
            body(sheet, rng.index(sheet.registers.len()))
        })
    }),
    ("bodies cut anywhere", |rng| {
        cut(rng, |rng, sheet| {
            between(rng, contents(sheet), size(sheet) - 1)
        })
    }),
    ("one byte short", |rng| cut(rng, |_, sheet| size(sheet) - 1)),
    ("one byte long", |rng| longer(rng, |_, size| size + 1)),
    ("some bytes long", |rng| {
        longer(rng, |rng, size| between(rng, size + 1, LONGEST))
    }),
    ("the longest sheet and one byte", |rng| {
        let mut bytes = lay_out(&made(rng, Shape::Longest).registers);
        bytes.push(rng.byte());
        length_fault(bytes)
    }),
    ("the longest sheet but one byte", |rng| {
        let mut bytes = lay_out(&made(rng, Shape::Longest).registers);
        bytes.pop();
        length_fault(bytes)
    }),
    ("longer than any sheet", |rng| {
        longer(rng, |rng, _| between(rng, LONGEST + 1, 5_000))
    }),
    ("longer by a multiple of 65536", |rng| {
        longer(rng, |_, size| size + 0x1_0000)
    }),
    ("1281 zeros", |_| count_fault(vec![0; LONGEST])),
    ("1282 zeros", |_| count_fault(vec![0; LONGEST + 1])),
    ("2000 zeros", |_| count_fault(vec![0; 2_000])),
];

const MASKS: &[Kind] = &[
    ("a shared bit, first register, first byte", |rng| {
        bad_mask(rng, share, first, first)
    }),
    ("a shared bit, first register, last byte", |rng| {
        bad_mask(rng, share, first, last)
    }),
    ("a shared bit, last register, first byte", |rng| {
        bad_mask(rng, share, last, first)
    }),
    ("a shared bit, last register, last byte", |rng| {
        bad_mask(rng, share, last, last)
    }),
    ("a shared bit anywhere", |rng| {
        bad_mask(rng, share, anywhere, anywhere)
    }),
    ("a reset bit outside, first register, first byte", |rng| {
        bad_mask(rng, reset_outside, first, first)
    }),
    ("a reset bit outside, first register, last byte", |rng| {
        bad_mask(rng, reset_outside, first, last)
    }),
    ("a reset bit outside, last register, first byte", |rng| {
        bad_mask(rng, reset_outside, last, first)
    }),
    ("a reset bit outside, last register, last byte", |rng| {
        bad_mask(rng, reset_outside, last, last)
    }),
    ("a reset bit outside anywhere", |rng| {
        bad_mask(rng, reset_outside, anywhere, anywhere)
    }),
    ("a reset bit in the host mask", |rng| {
        bad_mask(rng, reset_host, anywhere, anywhere)
    }),
];

const TWO_FAULTS: &[Kind] = &[
    ("no entry, and longer than any sheet", |rng| {
        too_long(rng, |rng| with_count(rng, 0))
    }),
    ("65 entries, and longer than any sheet", |rng| {
        too_long(rng, |rng| too_many(rng, 65))
    }),
    (
        "more entries than may be, and longer than any sheet",
        |rng| {
            too_long(rng, |rng| {
                let count = between(rng, MOST_ENTRIES + 1, 255);
                with_count(rng, count)
            })
        },
    ),
    ("a bad length, and longer than any sheet", |rng| {
        too_long(rng, length_poked)
    }),
    ("an overlap, and longer than any sheet", |rng| {
        too_long(rng, |rng| overlap(rng, 1))
    }),
    ("byte 255 passed, and longer than any sheet", |rng| {
        too_long(rng, |rng| past_the_end(rng, 1))
    }),
    ("a bad body start, and longer than any sheet", |rng| {
        too_long(rng, |rng| start_moved(rng, 1))
    }),
    (
        "the longest sheet, its last entry bad, and one byte",
        |rng| {
            let mut bytes = lay_out(&made(rng, Shape::Longest).registers);
            spoil_entry(rng, &mut bytes, MOST_ENTRIES - 1);
            bytes.push(rng.byte());
            entry_fault(bytes, MOST_ENTRIES - 1)
        },
    ),
    ("bad masks, and longer than any sheet", |rng| {
        let long = too_long(rng, |rng| bad_mask(rng, share, anywhere, anywhere));
        length_fault(long.bytes)
    }),
    ("too many entries, contents cut", |rng| {
        let mut bytes = too_many(rng, 65).bytes;
        bytes.truncate(between(rng, 1, 65 * ENTRY));
        count_fault(bytes)
    }),
    ("a bad entry, contents cut after it", cut_after_a_bad_entry),
    ("a bad entry, and a wrong length", bad_entry_and_length),
    ("bad masks, and one byte short", |rng| {
        let mut bytes = bad_mask(rng, share, anywhere, anywhere).bytes;
        bytes.pop();
        length_fault(bytes)
    }),
    ("bad masks, and one byte long", |rng| {
        let mut bytes = bad_mask(rng, reset_outside, anywhere, anywhere).bytes;
        bytes.push(rng.byte());
        length_fault(bytes)
    }),
    ("bad masks before a bad entry", bad_masks_before_a_bad_entry),
    ("two bad entries", two_bad_entries),
    ("two bad bodies", two_bad_bodies),
];

const CHANCE: &[Kind] = &[
    ("a byte of the contents changed", |rng| {
        changed(rng, 1, contents)
    }),
    ("a byte changed", |rng| changed(rng, 1, size)),
    ("a few bytes changed", |rng| {
        let times = between(rng, 2, 6);
        changed(rng, times, size)
    }),
    ("a bit changed", bit_changed),
    ("any bytes", |rng| {
        let length = between(rng, 0, LONGEST + 20);
        by_chance((0..length).map(|_| rng.byte()).collect())
    }),
    ("any small bytes", |rng| {
        let length = between(rng, 1, 60);
        by_chance((0..length).map(|_| rng.below(10) as u8).collect())
    }),
];

// ---- what is meant

fn refused(bytes: Vec<u8>, number: u32, entry: Option<usize>) -> Damaged {
    let meant = Meant::Refused { number, entry };
    Damaged { bytes, meant }
}

fn length_fault(bytes: Vec<u8>) -> Damaged {
    refused(bytes, 12, None)
}

fn count_fault(bytes: Vec<u8>) -> Damaged {
    refused(bytes, 13, None)
}

/// A fault in the entry of that index.
fn entry_fault(bytes: Vec<u8>, index: usize) -> Damaged {
    refused(bytes, 13, Some(index + 1))
}

/// A fault in the body of the entry of that index.
fn body_fault(bytes: Vec<u8>, index: usize) -> Damaged {
    refused(bytes, 14, Some(index + 1))
}

fn by_chance(bytes: Vec<u8>) -> Damaged {
    Damaged {
        bytes,
        meant: Meant::Chance,
    }
}

// ---- where things stand in a good sheet

/// A good sheet of such a kind.
fn such(rng: &mut Rng, such: impl Fn(&Sheet) -> bool) -> Sheet {
    loop {
        let sheet = any(rng);
        if such(&sheet) {
            return sheet;
        }
    }
}

/// A good sheet of two registers or more.
fn two_or_more(rng: &mut Rng) -> Sheet {
    such(rng, |sheet| sheet.registers.len() > 1)
}

/// The length of the contents, with the number of entries.
fn contents(sheet: &Sheet) -> usize {
    1 + sheet.registers.len() * ENTRY
}

/// Where the body of the entry of that index starts.
fn body(sheet: &Sheet, index: usize) -> usize {
    let before = sheet.registers[..index].iter().map(Register::bytes);
    contents(sheet) + before.sum::<usize>() * PARTS
}

/// The length of the sheet.
fn size(sheet: &Sheet) -> usize {
    body(sheet, sheet.registers.len())
}

/// Where the fields of the entry of that index stand.
const fn offset_of(index: usize) -> usize {
    1 + index * ENTRY
}

const fn length_of(index: usize) -> usize {
    offset_of(index) + 1
}

const fn start_of(index: usize) -> usize {
    offset_of(index) + 2
}

fn start(bytes: &[u8], index: usize) -> u16 {
    u16::from_le_bytes([bytes[start_of(index)], bytes[start_of(index) + 1]])
}

fn set_start(bytes: &mut [u8], index: usize, start: u16) {
    bytes[start_of(index)..][..2].copy_from_slice(&start.to_le_bytes());
}

// ---- the number of entries

/// A good sheet but for its first byte.
fn with_count(rng: &mut Rng, count: usize) -> Damaged {
    let mut bytes = lay_out(&any(rng).registers);
    bytes[0] = count as u8;
    count_fault(bytes)
}

/// More registers than there may be, but not more bytes.
fn too_many(rng: &mut Rng, count: usize) -> Damaged {
    let room = (LONGEST - 1 - count * ENTRY) / PARTS;
    let covered = between(rng, count, room.min(BYTES));
    count_fault(lay_out(&spread(rng, count, covered)))
}

// ---- entries

/// A register of that length among others, with room made for it.
fn with_length(rng: &mut Rng, length: usize) -> Damaged {
    let at = rng.index(BYTES + 1 - length.max(1));
    let room = at..at + length.max(1);
    let mut registers = any(rng).registers;
    registers.retain(|other| other.end() <= room.start || room.end <= other.at);
    registers.truncate(MOST_ENTRIES - 1);
    let index = registers.iter().filter(|other| other.at < at).count();
    registers.insert(index, register(rng, at, length));
    entry_fault(lay_out(&registers), index)
}

/// A length out of range put in the place of a good one.
fn length_poked(rng: &mut Rng) -> Damaged {
    let sheet = any(rng);
    let index = rng.index(sheet.registers.len());
    let mut bytes = lay_out(&sheet.registers);
    let above = between(rng, MOST_BYTES + 1, 255) as u8;
    bytes[length_of(index)] = rng.pick(&[0, 9, 16, 128, 255, above]);
    entry_fault(bytes, index)
}

/// Another length in range. What it breaks depends on what stands around it.
fn other_length(rng: &mut Rng) -> Damaged {
    let sheet = any(rng);
    let index = rng.index(sheet.registers.len());
    let mut bytes = lay_out(&sheet.registers);
    let was = usize::from(bytes[length_of(index)]);
    let other = (was + rng.index(MOST_BYTES - 1)) % MOST_BYTES + 1;
    bytes[length_of(index)] = other as u8;
    by_chance(bytes)
}

fn same_offset(rng: &mut Rng) -> Damaged {
    let mut registers = two_or_more(rng).registers;
    let index = between(rng, 1, registers.len() - 1);
    registers[index].at = registers[index - 1].at;
    entry_fault(lay_out(&registers), index)
}

/// A register that starts so many bytes before the one before it has ended,
/// or with its second byte if it isn't longer than that.
fn overlap(rng: &mut Rng, by: usize) -> Damaged {
    let long = |register: &Register| register.bytes() > 1;
    let sheet = such(rng, |sheet| {
        let all_but_last = &sheet.registers[..sheet.registers.len() - 1];
        all_but_last.iter().any(long)
    });
    let mut registers = sheet.registers;
    let befores: Vec<usize> = (0..registers.len() - 1)
        .filter(|index| long(&registers[*index]))
        .collect();
    let before = rng.pick(&befores);
    let by = by.min(registers[before].bytes() - 1);
    registers[before + 1].at = registers[before].end() - by;
    entry_fault(lay_out(&registers), before + 1)
}

/// Two registers, one after the other, in the wrong order.
fn exchanged_registers(rng: &mut Rng) -> Damaged {
    let mut registers = two_or_more(rng).registers;
    let index = between(rng, 1, registers.len() - 1);
    registers.swap(index - 1, index);
    entry_fault(lay_out(&registers), index)
}

/// A last register that passes byte 255 by so many bytes.
fn past_the_end(rng: &mut Rng, by: usize) -> Damaged {
    let sheet = such(rng, |sheet| {
        sheet.registers.last().map_or(0, Register::bytes) > by
    });
    let mut registers = sheet.registers;
    let index = registers.len() - 1;
    registers[index].at = BYTES + by - registers[index].bytes();
    entry_fault(lay_out(&registers), index)
}

// ---- body starts

/// A sheet with one body start changed; the change must change it.
fn start_changed(rng: &mut Rng, change: impl Fn(&mut Rng, u16) -> u16) -> Damaged {
    loop {
        let sheet = any(rng);
        let index = rng.index(sheet.registers.len());
        let mut bytes = lay_out(&sheet.registers);
        let was = start(&bytes, index);
        let start = change(rng, was);
        if start != was {
            set_start(&mut bytes, index, start);
            return entry_fault(bytes, index);
        }
    }
}

fn start_moved(rng: &mut Rng, by: i16) -> Damaged {
    start_changed(rng, |_, start| start.wrapping_add(by as u16))
}

fn other_high_byte(rng: &mut Rng) -> Damaged {
    start_changed(rng, |rng, start| start ^ 0x100 << rng.below(8))
}

fn exchanged_bytes(rng: &mut Rng) -> Damaged {
    start_changed(rng, |_, start| start.swap_bytes())
}

/// A body start before the end of the contents.
fn body_in_contents(rng: &mut Rng) -> Damaged {
    let sheet = any(rng);
    let index = rng.index(sheet.registers.len());
    let mut bytes = lay_out(&sheet.registers);
    let any_start = rng.index(contents(&sheet));
    let start = rng.pick(&[0, 1, contents(&sheet) - 1, any_start]);
    set_start(&mut bytes, index, start as u16);
    entry_fault(bytes, index)
}

/// A few bytes between two bodies or before the first one; all starts and the
/// length go with them.
fn gap(rng: &mut Rng, chosen: fn(&mut Rng, usize) -> usize) -> Damaged {
    let sheet = such(rng, |sheet| {
        sheet.registers.len() > 1 && size(sheet) + 8 <= LONGEST
    });
    let count = sheet.registers.len();
    let index = chosen(rng, count);
    let length = between(rng, 1, 8);
    let mut bytes = lay_out(&sheet.registers);
    let at = body(&sheet, index);
    bytes.splice(at..at, vec![0; length]);
    for later in index..count {
        let start = start(&bytes, later) + length as u16;
        set_start(&mut bytes, later, start);
    }
    entry_fault(bytes, index)
}

/// A body that two registers of the same length share; all later starts and
/// the length go with it.
fn shared_body(rng: &mut Rng) -> Damaged {
    let same = |sheet: &Sheet, index: usize| {
        sheet.registers[index - 1].bytes() == sheet.registers[index].bytes()
    };
    let sheet = such(rng, |sheet| {
        (1..sheet.registers.len()).any(|index| same(sheet, index))
    });
    let count = sheet.registers.len();
    let seconds: Vec<usize> = (1..count).filter(|index| same(&sheet, *index)).collect();
    let index = rng.pick(&seconds);
    let mut bytes = lay_out(&sheet.registers);
    let length = sheet.registers[index].bytes() * PARTS;
    bytes.drain(body(&sheet, index)..body(&sheet, index) + length);
    for later in index..count {
        let start = start(&bytes, later) - length as u16;
        set_start(&mut bytes, later, start);
    }
    entry_fault(bytes, index)
}

/// Two registers of the same length, each with the other's body.
fn exchanged_bodies(rng: &mut Rng) -> Damaged {
    loop {
        let sheet = two_or_more(rng);
        let registers = &sheet.registers;
        let index = rng.index(registers.len() - 1);
        let other = between(rng, index + 1, registers.len() - 1);
        if registers[index].bytes() == registers[other].bytes() {
            let mut bytes = lay_out(registers);
            let (one, two) = (start(&bytes, index), start(&bytes, other));
            set_start(&mut bytes, index, two);
            set_start(&mut bytes, other, one);
            return entry_fault(bytes, index);
        }
    }
}

// ---- lengths

/// A good sheet cut to so many bytes.
fn cut(rng: &mut Rng, length: fn(&mut Rng, &Sheet) -> usize) -> Damaged {
    let sheet = any(rng);
    let mut bytes = lay_out(&sheet.registers);
    bytes.truncate(length(rng, &sheet));
    length_fault(bytes)
}

/// A good sheet, but not the longest, with a tail up to so many bytes.
fn longer(rng: &mut Rng, length: fn(&mut Rng, usize) -> usize) -> Damaged {
    let sheet = such(rng, |sheet| size(sheet) < LONGEST);
    let mut bytes = lay_out(&sheet.registers);
    let length = length(rng, bytes.len());
    bytes.resize_with(length, || rng.byte());
    length_fault(bytes)
}

/// Damage that is found before the total length, in a file longer than any sheet.
fn too_long(rng: &mut Rng, damage: impl Fn(&mut Rng) -> Damaged) -> Damaged {
    let mut damaged = damage(rng);
    let length = between(rng, LONGEST + 1, 3_000);
    damaged.bytes.resize_with(length, || rng.byte());
    damaged
}

// ---- masks

/// A place among so many.
type Place = fn(&mut Rng, usize) -> usize;
/// Spoils the masks of a byte of a register in one bit.
type Spoil = fn(&mut Register, usize, u8);

fn first(_: &mut Rng, _: usize) -> usize {
    0
}

fn last(_: &mut Rng, count: usize) -> usize {
    count - 1
}

fn anywhere(rng: &mut Rng, count: usize) -> usize {
    rng.index(count)
}

/// Puts a bit into the guest mask and into the host mask.
fn share(register: &mut Register, byte: usize, bit: u8) {
    register.guest[byte] |= bit;
    register.host[byte] |= bit;
}

/// Puts a bit into the reset mask alone.
fn reset_outside(register: &mut Register, byte: usize, bit: u8) {
    register.guest[byte] &= !bit;
    register.host[byte] &= !bit;
    register.reset[byte] |= bit;
}

/// Puts a bit into the reset mask and into the host mask.
fn reset_host(register: &mut Register, byte: usize, bit: u8) {
    reset_outside(register, byte, bit);
    register.host[byte] |= bit;
}

/// Spoils the masks of a register in any bit of that byte.
fn spoil_bit(rng: &mut Rng, register: &mut Register, spoil: Spoil, byte: Place) {
    let byte = byte(rng, register.bytes());
    spoil(register, byte, 1 << rng.below(8));
}

/// A good sheet but for the masks of one bit.
fn bad_mask(rng: &mut Rng, spoil: Spoil, index: Place, byte: Place) -> Damaged {
    let mut registers = any(rng).registers;
    let index = index(rng, registers.len());
    spoil_bit(rng, &mut registers[index], spoil, byte);
    body_fault(lay_out(&registers), index)
}

// ---- two faults

/// Spoils the entry of that index in its length, its offset or its start.
fn spoil_entry(rng: &mut Rng, bytes: &mut [u8], index: usize) {
    match rng.below(3) {
        0 => bytes[length_of(index)] = rng.pick(&[0, 9, 255]),
        1 if index > 0 => bytes[offset_of(index)] = bytes[offset_of(index - 1)],
        _ => bytes[start_of(index)] ^= 1 << rng.below(8),
    }
}

fn cut_after_a_bad_entry(rng: &mut Rng) -> Damaged {
    let sheet = two_or_more(rng);
    let count = sheet.registers.len();
    let index = rng.index(count - 1);
    let mut bytes = lay_out(&sheet.registers);
    spoil_entry(rng, &mut bytes, index);
    bytes.truncate(between(rng, offset_of(index + 1), contents(&sheet) - 1));
    length_fault(bytes)
}

fn bad_entry_and_length(rng: &mut Rng) -> Damaged {
    let sheet = such(rng, |sheet| size(sheet) < LONGEST);
    let index = rng.index(sheet.registers.len());
    let mut bytes = lay_out(&sheet.registers);
    spoil_entry(rng, &mut bytes, index);
    if rng.one_in(2) {
        bytes.truncate(between(rng, contents(&sheet), size(&sheet) - 1));
    } else {
        bytes.resize(between(rng, size(&sheet) + 1, LONGEST), 0);
    }
    entry_fault(bytes, index)
}

fn bad_masks_before_a_bad_entry(rng: &mut Rng) -> Damaged {
    let mut registers = two_or_more(rng).registers;
    let index = between(rng, 1, registers.len() - 1);
    let before = rng.index(index);
    spoil_bit(rng, &mut registers[before], share, anywhere);
    let mut bytes = lay_out(&registers);
    spoil_entry(rng, &mut bytes, index);
    entry_fault(bytes, index)
}

fn two_bad_entries(rng: &mut Rng) -> Damaged {
    let sheet = two_or_more(rng);
    let later = between(rng, 1, sheet.registers.len() - 1);
    let index = rng.index(later);
    let mut bytes = lay_out(&sheet.registers);
    spoil_entry(rng, &mut bytes, later);
    spoil_entry(rng, &mut bytes, index);
    entry_fault(bytes, index)
}

fn two_bad_bodies(rng: &mut Rng) -> Damaged {
    let mut registers = two_or_more(rng).registers;
    let later = between(rng, 1, registers.len() - 1);
    let index = rng.index(later);
    spoil_bit(rng, &mut registers[later], share, anywhere);
    spoil_bit(rng, &mut registers[index], reset_outside, anywhere);
    body_fault(lay_out(&registers), index)
}

// ---- by chance

/// Up to so many bytes changed among the first so many.
fn changed(rng: &mut Rng, times: usize, among: fn(&Sheet) -> usize) -> Damaged {
    let sheet = any(rng);
    let mut bytes = lay_out(&sheet.registers);
    for _ in 0..times {
        bytes[rng.index(among(&sheet))] = rng.byte();
    }
    by_chance(bytes)
}

fn bit_changed(rng: &mut Rng) -> Damaged {
    let mut bytes = lay_out(&any(rng).registers);
    let index = rng.index(bytes.len());
    bytes[index] ^= 1 << rng.below(8);
    by_chance(bytes)
}
