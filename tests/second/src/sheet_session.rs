//! Made sessions on the device of a register sheet.
//!
//! A session opens by turning every bit that can be turned and by both resets,
//! so that each mask shows in each bit. As in [`crate::session`] scenes follow,
//! with platform resets and spoiled lines in between. Accesses go mostly to the
//! sheet's registers and host updates mostly to its host bits.

use std::collections::VecDeque;

use crate::malform::spoil;
use crate::rng::Rng;
use crate::session::{
    aligned, fewer_lanes, host, last_line, read, stray_window_line, walk, write, NEAR_WINDOW,
};
use crate::sheet::{Register, Sheet};

/// One line in so many is a platform reset: rare enough that bits matter.
const LINES_TO_A_PLATFORM_RESET: u64 = 150;
/// One line in so many is spoiled.
const LINES_TO_A_SPOILED: u64 = 12;
/// One look at a dword in so many has a read of fewer lanes behind it.
const LOOKS_TO_FEWER_LANES: u64 = 3;

/// Lines near the function reset's, all of them refused.
const NEAR_FUNCTION_RESET: &[&[u8]] = &[
    b"Z ", b" Z", b"z", b"ZZ", b"Z 0", b"Z 00", b"Z\r", b"Z\t", b"Z\0", b"Y", b"[", b"2",
];

/// A session in the making.
struct SheetSession<'a> {
    rng: &'a mut Rng,
    sheet: &'a Sheet,
    opening: VecDeque<Vec<u8>>,
    lines: VecDeque<Vec<u8>>,
}

/// A session of so many lines in memory. Its last line may lack its LF.
pub fn text(rng: &mut Rng, sheet: &Sheet, lines: u64) -> Vec<u8> {
    let mut session = SheetSession {
        rng,
        sheet,
        opening: opening(sheet).into(),
        lines: VecDeque::new(),
    };
    let mut text = Vec::new();
    for _ in 1..lines {
        text.extend(session.next_line());
        text.push(b'\n');
    }
    if lines > 0 {
        let line = session.next_line();
        text.extend(last_line(session.rng, line));
    }
    text
}

impl SheetSession<'_> {
    /// The next line, without its LF.
    fn next_line(&mut self) -> Vec<u8> {
        if let Some(line) = self.opening.pop_front() {
            return line;
        }
        if self.rng.one_in(LINES_TO_A_PLATFORM_RESET) {
            return b"P".to_vec();
        }
        if self.rng.one_in(LINES_TO_A_SPOILED) {
            return self.spoiled_line();
        }
        loop {
            match self.lines.pop_front() {
                Some(line) => return line,
                None => self.scene(),
            }
        }
    }

    /// A spoiled line, or one that only the player or the console knows.
    fn spoiled_line(&mut self) -> Vec<u8> {
        let (offset, lanes) = (self.dword(), self.rng.below(16) as u32);
        let line = match self.rng.below(11) {
            0..=1 => write(offset, lanes, self.rng.telling_dword()),
            2 => read(offset, lanes),
            3 => host(self.byte(), self.rng.byte(), self.rng.byte()),
            4 => b"P".to_vec(),
            5 => b"Z".to_vec(),
            6 => return self.rng.pick(NEAR_FUNCTION_RESET).to_vec(),
            7 => return b"E".to_vec(),
            8 => return walk(self.rng.byte()),
            9 => return self.rng.pick(NEAR_WINDOW).to_vec(),
            _ => return stray_window_line(self.rng),
        };
        spoil(self.rng, &line)
    }
}

/// Places.
impl SheetSession<'_> {
    fn register(&mut self) -> &Register {
        let sheet = self.sheet;
        &sheet.registers[self.rng.index(sheet.registers.len())]
    }

    /// A byte of a register in most cases, or next to one, or any.
    fn byte(&mut self) -> u8 {
        let inside = self.rng.index(8);
        let register = self.register();
        let (at, end) = (register.at, register.end());
        let within = at + inside % register.bytes();
        let place = match self.rng.below(12) {
            0 => return self.rng.byte(),
            1 => at.wrapping_sub(1),
            2 => end,
            3 => end - 1,
            _ => within,
        };
        place as u8
    }

    /// A dword with such a byte.
    fn dword(&mut self) -> u32 {
        u32::from(self.byte()) & !3
    }

    /// Any lanes, all of them more often.
    fn lanes(&mut self) -> u32 {
        if self.rng.one_in(3) {
            0xF
        } else {
            self.rng.below(16) as u32
        }
    }
}

/// Scenes.
impl SheetSession<'_> {
    fn scene(&mut self) {
        match self.rng.below(40) {
            0..=13 => self.writes(),
            14..=25 => self.host_updates(),
            26..=32 => self.function_reset(),
            33..=35 => self.reads(),
            36..=37 => self.unaligned(),
            38 => self.host_sweep(),
            _ => self.read_everything(),
        }
    }

    fn writes(&mut self) {
        for _ in 0..1 + self.rng.below(4) {
            let offset = self.dword();
            self.push_write(offset);
            self.push_look(offset);
        }
    }

    fn push_write(&mut self, offset: u32) {
        let (lanes, value) = (self.lanes(), self.rng.telling_dword());
        self.lines.push_back(write(offset, lanes, value));
    }

    /// A read of a whole dword, and now and then one of fewer lanes.
    fn push_look(&mut self, offset: u32) {
        self.lines.push_back(read(offset, 0xF));
        if self.rng.one_in(LOOKS_TO_FEWER_LANES) {
            let lanes = fewer_lanes(self.rng);
            self.lines.push_back(read(offset, lanes));
        }
    }

    fn host_updates(&mut self) {
        for _ in 0..1 + self.rng.below(4) {
            let at = self.byte();
            self.push_host(at);
            self.push_look(u32::from(at) & !3);
        }
    }

    /// A host update, mostly of host bits alone.
    fn push_host(&mut self, at: u8) {
        let (some, one) = (self.rng.byte(), 1 << self.rng.below(8));
        let bits = byte_of(self.sheet, at, |register| &register.host);
        let mask = match self.rng.below(10) {
            0 => 0,
            1 => some,
            2 => one,
            3 => bits | one,
            4..=5 => bits,
            _ => bits & some,
        };
        self.lines.push_back(host(at, mask, self.rng.byte()));
    }

    /// Makes bits differ from their defaults, resets, and reads them.
    fn function_reset(&mut self) {
        let bytes: Vec<u8> = (0..1 + self.rng.below(4)).map(|_| self.byte()).collect();
        for at in &bytes {
            self.push_write(u32::from(*at) & !3);
            self.push_host(*at);
        }
        self.lines.push_back(b"Z".to_vec());
        for at in &bytes {
            self.push_look(u32::from(*at) & !3);
        }
    }

    fn reads(&mut self) {
        for _ in 0..1 + self.rng.below(4) {
            let offset = if self.rng.one_in(2) {
                aligned(self.rng)
            } else {
                self.dword()
            };
            let lanes = self.lanes();
            self.lines.push_back(read(offset, lanes));
        }
    }

    fn unaligned(&mut self) {
        let offset = u32::from(self.byte() | 1 << self.rng.below(2));
        let lanes = self.lanes();
        self.lines.push_back(read(offset, lanes));
        self.push_write(offset);
        self.push_look(offset & !3);
    }

    /// Each bit of one byte alone.
    fn host_sweep(&mut self) {
        let at = self.byte();
        for place in 0..8 {
            self.lines.push_back(host(at, 1 << place, self.rng.byte()));
        }
        self.push_look(u32::from(at) & !3);
    }

    fn read_everything(&mut self) {
        self.lines.extend(reads_of_everything());
    }
}

/// A byte of one part of the sheet's bodies, 0 where nothing is listed.
fn byte_of(sheet: &Sheet, at: u8, part: fn(&Register) -> &[u8]) -> u8 {
    let at = usize::from(at);
    sheet
        .registers
        .iter()
        .find(|register| (register.at..register.end()).contains(&at))
        .map_or(0, |register| part(register)[at - register.at])
}

fn reads_of_everything() -> impl Iterator<Item = Vec<u8>> {
    (0..=255).step_by(4).map(|offset| read(offset, 0xF))
}

/// A read of each dword, by lanes from 0 to 15 in turn.
fn reads_by_lanes() -> impl Iterator<Item = Vec<u8>> {
    (0..64).map(|dword| read(dword * 4, dword % 16))
}

/// Turns all bits of the guest and then all of the host, resets the function
/// and then the platform, and reads everything at first and after each. When
/// all is turned it reads by lanes too.
fn opening(sheet: &Sheet) -> Vec<Vec<u8>> {
    let turned = |at: u8| !byte_of(sheet, at, |register| &register.default);
    let dword = |at: u8| u32::from_le_bytes([0, 1, 2, 3].map(|lane| turned(at + lane)));
    let writes = (0..=255)
        .step_by(4)
        .map(|at| write(u32::from(at), 0xF, dword(at)));
    let updates = (0..=255)
        .map(|at| (at, byte_of(sheet, at, |register| &register.host)))
        .filter(|(_, mask)| *mask != 0)
        .map(|(at, mask)| host(at, mask, turned(at)));
    reads_of_everything()
        .chain(writes)
        .chain(reads_of_everything())
        .chain(updates)
        .chain(reads_of_everything())
        .chain(reads_by_lanes())
        .chain([b"Z".to_vec()])
        .chain(reads_of_everything())
        .chain([b"P".to_vec()])
        .chain(reads_of_everything())
        .collect()
}
