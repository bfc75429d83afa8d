//! Made sessions: the same text from the same seed, with much going on in it.
//!
//! A session is a row of scenes, each of a few steps around one rule of the
//! paper, with platform resets, end signals and spoiled lines strewn in between.
//! A scene in which a function reset starts waits until a busy phase of some
//! lines is over. The maker keeps a twin of its own, but only to know when it is
//! busy and has open fields, and to aim at the bases and at what the window holds
//! as they stand.

mod window;

use std::collections::VecDeque;
use std::io::{self, Write};

use crate::line::{answer, Mode};
use crate::malform::spoil;
use crate::map;
use crate::rng::Rng;
use crate::twin::Twin;
use crate::window::Register;

use window::goes_on_in_window;
pub(crate) use window::{stray_window_line, NEAR_WINDOW};

/// One line in so many is a platform reset: rare enough that locks matter.
const LINES_TO_A_PLATFORM_RESET: u64 = 200;
/// One line in so many is an end signal that no function reset asks for.
const LINES_TO_AN_END_SIGNAL: u64 = 100;
/// One line in so many is spoiled.
const LINES_TO_A_SPOILED: u64 = 12;
/// One look at a dword in so many has a read of fewer lanes behind it.
const LOOKS_TO_FEWER_LANES: u64 = 2;
/// Sweeps of host bits start so many bytes further on for each seed, so that
/// together a few seeds in a row sweep all bytes.
const SWEPT_BY_A_SEED: u64 = 25;

/// Registers that a function reset returns to default, by dword.
const RESET_DWORDS: &[u32] = &[
    0x04, 0x10, 0x14, 0x18, 0x1C, 0x20, 0x60, 0x90, 0x94, 0x98, 0xD4,
];
/// Registers that a guest writes and a function reset leaves, by dword.
const KEPT_DWORDS: &[u32] = &[0x2C, 0x3C, 0x60, 0x7C, 0xE0, 0xE4, 0xE8, 0xFC];
/// Bytes in which there are host bits.
const HOST_BYTES: &[u8] = &[
    0x02, 0x03, 0x06, 0x08, 0x0A, 0x0B, 0x44, 0x45, 0x46, 0x47, 0x48, 0x49, 0x4A, 0x4B, 0x50, 0x51,
    0x54, 0x55, 0x56, 0x57, 0x5C, 0x5D, 0x5E, 0x5F, 0x63,
];
/// The dwords in which there are write-once fields.
const WRITE_ONCE_DWORDS: &[u32] = &[0x2C, 0xE8];
/// Lines near the end signal's, all of them refused.
const NEAR_END_SIGNAL: &[&[u8]] = &[
    b"E ", b" E", b"e", b"EE", b"E E", b"E 0", b"E 00", b"E0", b"E\r", b"E\t", b"E\0", b"D", b"F",
];
/// Lanes that a port access can have, with its first lane and its width.
const PORT_LANES: &[(u32, u32, u32)] = &[
    (0x1, 0, 1),
    (0x2, 1, 1),
    (0x4, 2, 1),
    (0x8, 3, 1),
    (0x3, 0, 2),
    (0x6, 1, 2),
    (0xC, 2, 2),
    (0xF, 0, 4),
];

/// A step of a scene.
enum Step {
    /// A line as it stands.
    Line(Vec<u8>),
    /// A claim near a memory base as it will stand by then.
    NearMemoryBase,
    /// A claim near the I/O base as it will stand by then.
    NearIoBase,
    /// A claim of the address so far from GTTMMADR's base as it will stand by then.
    InTranslation(u32),
    /// A guest's write in the window as it will stand by then.
    WindowWrite(u32),
    /// What the host does to a register of the window as it will stand by then.
    HostChange(Register),
}

/// A session in the making.
pub struct Session {
    rng: Rng,
    mode: Mode,
    twin: Twin,
    steps: VecDeque<Step>,
    /// The byte whose bits are tried next, one by one, with host updates.
    swept: u8,
}

impl Session {
    /// The session of that seed.
    pub fn new(seed: u64, mode: Mode) -> Session {
        Session {
            rng: Rng::new(seed),
            mode,
            twin: Twin::fresh(),
            steps: VecDeque::new(),
            swept: seed.wrapping_mul(SWEPT_BY_A_SEED) as u8,
        }
    }

    /// The next line, without its LF.
    pub fn next_line(&mut self) -> Vec<u8> {
        let line = self.any_line();
        let was_busy = self.twin.is_busy();
        answer(&mut self.twin, &line, self.mode);
        if self.twin.is_busy() && !was_busy {
            self.busy_phase();
        }
        line
    }

    fn any_line(&mut self) -> Vec<u8> {
        if self.rng.one_in(LINES_TO_A_PLATFORM_RESET) {
            return self.platform_reset();
        }
        if self.rng.one_in(LINES_TO_A_SPOILED) {
            return self.spoiled_line();
        }
        if self.rng.one_in(LINES_TO_AN_END_SIGNAL) {
            return end_signal();
        }
        self.next_step()
    }

    /// A platform reset, now and then with new first writes right behind it,
    /// or with a function reset before them.
    fn platform_reset(&mut self) -> Vec<u8> {
        if self.rng.one_in(2) {
            self.steps.clear();
            if self.rng.one_in(2) {
                self.push_write(0xA8, 1, 1);
            }
            self.write_once();
        }
        b"P".to_vec()
    }

    /// A spoiled line, or one that only the console knows.
    fn spoiled_line(&mut self) -> Vec<u8> {
        if self.rng.one_in(20) {
            return self.rng.pick(NEAR_END_SIGNAL).to_vec();
        }
        if self.rng.one_in(20) {
            return self.rng.pick(NEAR_WINDOW).to_vec();
        }
        let line = self.stray_line();
        if self.mode == Mode::Player && self.rng.one_in(6) {
            return line;
        }
        spoil(&mut self.rng, &line)
    }

    /// The next step of the scene, or the first of a new one, as a line.
    fn next_step(&mut self) -> Vec<u8> {
        loop {
            match self.steps.pop_front() {
                Some(Step::Line(line)) => return line,
                Some(Step::NearMemoryBase) => return claim_memory(self.address()),
                Some(Step::NearIoBase) => return claim_port(self.port()),
                Some(Step::InTranslation(offset)) => {
                    return claim_memory(self.twin.translation_base() + u64::from(offset));
                }
                Some(Step::WindowWrite(offset)) => return self.window_write_line(offset),
                Some(Step::HostChange(register)) => return self.host_change_line(register),
                None => self.scene(),
            }
        }
    }
}

/// Lines.
impl Session {
    /// A line of any of the console's forms, outside any scene.
    fn stray_line(&mut self) -> Vec<u8> {
        let rng = &mut self.rng;
        match rng.below(18) {
            0..=2 => write(aligned(rng), rng.below(16) as u32, rng.telling_dword()),
            3..=4 => read(aligned(rng), rng.below(16) as u32),
            5..=6 => host(rng.pick(HOST_BYTES), rng.byte(), rng.byte()),
            7 => b"P".to_vec(),
            8 => end_signal(),
            9 => port_write(0x0CF8, 4, latch(rng)),
            10 => port_read(0x0CFC, 4),
            11 => claim_memory(rng.qword()),
            12 => claim_port(rng.dword() as u16),
            13 => probe(rng.telling_dword(), rng.telling_dword()),
            14 => walk(rng.byte()),
            _ => stray_window_line(rng),
        }
    }

    fn push(&mut self, line: Vec<u8>) {
        self.steps.push_back(Step::Line(line));
    }

    /// A guest write, in the console now and then through the ports.
    fn push_write(&mut self, offset: u32, lanes: u32, value: u32) {
        match self.through_ports(lanes) {
            Some((first, width)) => {
                let noise = self.rng.dword().checked_shl(8 * width).unwrap_or(0);
                let shifted = value >> (8 * first);
                let kept = u32::MAX >> (32 - 8 * width);
                self.push(port_write(0x0CF8, 4, 0x8000_1000 | offset));
                self.push(port_write(0x0CFC + first, width, shifted & kept | noise));
            }
            None => self.push(write(offset, lanes, value)),
        }
    }

    /// A guest read, in the console now and then through the ports.
    fn push_read(&mut self, offset: u32, lanes: u32) {
        match self.through_ports(lanes) {
            Some((first, width)) => {
                self.push(port_write(0x0CF8, 4, 0x8000_1000 | offset));
                self.push(port_read(0x0CFC + first, width));
            }
            None => self.push(read(offset, lanes)),
        }
    }

    /// A guest read of a whole dword, and now and then one of fewer lanes.
    fn push_look(&mut self, offset: u32) {
        self.push_read(offset, 0xF);
        if self.rng.one_in(LOOKS_TO_FEWER_LANES) {
            let lanes = fewer_lanes(&mut self.rng);
            self.push_read(offset, lanes);
        }
    }

    /// First lane and width, if the access is to go through the ports and can.
    fn through_ports(&mut self, lanes: u32) -> Option<(u32, u32)> {
        if self.mode == Mode::Player || !self.rng.one_in(3) {
            return None;
        }
        PORT_LANES
            .iter()
            .find(|(those, _, _)| *those == lanes)
            .map(|(_, first, width)| (*first, *width))
    }

    /// Any lanes, all of them more often.
    fn lanes(&mut self) -> u32 {
        if self.rng.one_in(2) {
            0xF
        } else {
            self.rng.below(16) as u32
        }
    }

    /// The lanes of a read: all of them, or fewer as often.
    fn read_lanes(&mut self) -> u32 {
        if self.rng.one_in(2) {
            0xF
        } else {
            fewer_lanes(&mut self.rng)
        }
    }
}

/// Scenes.
impl Session {
    fn scene(&mut self) {
        if self.mode == Mode::Console {
            match self.rng.below(33) {
                0..=11 => return self.console_scene(),
                12..=18 => return self.window_scene(),
                _ => {}
            }
        }
        match self.rng.below(64) {
            0..=6 => self.write_once(),
            7..=15 => self.aperture(),
            16..=23 => self.function_reset(),
            24..=27 => self.power(),
            28..=31 => self.capability_list(),
            32..=39 => self.host_updates(),
            40..=43 => self.some_reads(),
            44 => self.reads_by_all_lanes(),
            45..=47 => self.unaligned(),
            48 => self.read_everything(),
            49..=52 => self.host_sweep(),
            _ => self.some_writes(),
        }
    }

    fn console_scene(&mut self) {
        match self.rng.below(40) {
            0..=11 => self.latch_and_data(),
            12..=17 => self.ports_around(),
            18..=27 => self.claims(),
            28..=33 => self.probes(),
            34..=37 => self.walks(),
            _ => self.size_probe_of_a_base(),
        }
    }

    /// Partial lanes on the write-once fields, and function resets among them.
    fn write_once(&mut self) {
        for _ in 0..2 + self.rng.below(4) {
            let offset = self.rng.pick(&[0x2C, 0x2C, 0xE8]);
            let (lanes, value) = (self.rng.below(16) as u32, self.rng.telling_dword());
            self.push_write(offset, lanes, value);
            if self.rng.one_in(5) {
                self.push_write(0xA8, 1, 1);
            }
            self.push_look(offset);
        }
    }

    /// GMADR against MSAC's size codes, with MSAC's lane on and off.
    fn aperture(&mut self) {
        for _ in 0..2 + self.rng.below(4) {
            match self.rng.below(5) {
                0 | 1 => self.write_gmadr(),
                2 => {
                    let (lanes, value) = (self.lanes(), self.rng.telling_dword());
                    self.push_write(0x1C, lanes, value);
                }
                _ => self.write_size_code(),
            }
            self.push_look(0x18);
            if self.rng.one_in(3) {
                self.push_look(0x60);
            }
        }
    }

    fn write_gmadr(&mut self) {
        let any = self.rng.telling_dword();
        let value = self
            .rng
            .pick(&[any, u32::MAX, 0xF800_0000, 0x1800_0000, 0x0800_0000]);
        let any_lanes = self.rng.below(16) as u32;
        let lanes = self.rng.pick(&[0xF, 0xF, 0x8, any_lanes]);
        self.push_write(0x18, lanes, value);
    }

    fn write_size_code(&mut self) {
        let code = self.rng.below(4) as u32;
        let value = self.rng.dword() & !0x0006_0000 | code << 17;
        let any_lanes = self.rng.below(16) as u32;
        let lanes = self.rng.pick(&[0x4, 0x4, 0xF, any_lanes, any_lanes & !0x4]);
        self.push_write(0x60, lanes, value);
    }

    /// Makes registers differ from their defaults and then writes AFCTL, by
    /// which a function reset may or may not start; an end signal may follow.
    fn function_reset(&mut self) {
        if self.rng.one_in(3) {
            self.push_write(0x60, 0x4, 0);
            self.push_write(0x18, 0xF, u32::MAX);
        }
        for _ in 0..self.rng.below(6) {
            let offset = self.any_guest_dword();
            let value = self.rng.telling_dword();
            self.push_write(offset, 0xF, value);
        }
        let any = self.rng.dword();
        let value = self.rng.pick(&[1, 1, u32::MAX, 0, 0xFFFF_FFFE, any]);
        let any_lanes = self.rng.below(16) as u32;
        let lanes = self.rng.pick(&[0x1, 0x1, 0xF, 0xE, any_lanes]);
        self.push_write(0xA8, lanes, value);
        if self.rng.one_in(3) {
            self.push(end_signal());
        }
        for _ in 0..1 + self.rng.below(6) {
            let offset = self.any_guest_dword();
            self.push_look(offset);
        }
        self.push_look(0xA8);
    }

    fn any_guest_dword(&mut self) -> u32 {
        let kept = self.rng.one_in(3);
        self.rng.pick(if kept { KEPT_DWORDS } else { RESET_DWORDS })
    }

    /// All codes of PMCS bits 1:0.
    fn power(&mut self) {
        for _ in 0..1 + self.rng.below(4) {
            let value = self.rng.dword() & !3 | self.rng.below(4) as u32;
            let any_lanes = self.rng.below(16) as u32;
            let lanes = self.rng.pick(&[0x1, 0x3, 0xF, 0xE, any_lanes]);
            self.push_write(0xD4, lanes, value);
            self.push_look(0xD4);
        }
    }

    /// CAPL, and what it does to CAPPOINT.
    fn capability_list(&mut self) {
        let value = self.rng.telling_dword();
        let any_lanes = self.rng.below(16) as u32;
        let lanes = self.rng.pick(&[0x8, 0x8, 0xF, 0x7, any_lanes]);
        self.push_write(0x7C, lanes, value);
        self.push_look(0x34);
        self.push_look(0x7C);
        if self.mode == Mode::Console {
            self.walks();
        }
    }

    /// Host updates inside and outside the masks, mask 0 and any offset too.
    fn host_updates(&mut self) {
        for _ in 0..1 + self.rng.below(4) {
            let dword = self.push_host();
            self.push_look(dword);
        }
    }

    /// A host update, and the dword of its byte.
    fn push_host(&mut self) -> u32 {
        let offset = self.update_offset();
        let mask = self.update_mask(offset);
        let value = self.rng.byte();
        self.push(host(offset, mask, value));
        u32::from(offset) & !3
    }

    /// A byte with host bits in most cases, or next to one, or any.
    fn update_offset(&mut self) -> u8 {
        let host = self.rng.pick(HOST_BYTES);
        match self.rng.below(6) {
            0 => self.rng.byte(),
            1 => self.rng.pick(&[host.wrapping_sub(1), host.wrapping_add(1)]),
            _ => host,
        }
    }

    /// A mask of host bits of that byte, or with any bits in it.
    fn update_mask(&mut self, offset: u8) -> u8 {
        let (some, one) = (self.rng.byte(), 1 << self.rng.below(8));
        match self.rng.below(9) {
            0 => 0,
            1 => 0xFF,
            2 => some,
            3 | 4 => one,
            5 => host_bits(offset),
            6 => host_bits(offset) & some | one,
            _ => host_bits(offset) & some,
        }
    }

    /// Each bit of one byte alone, byte after byte.
    fn host_sweep(&mut self) {
        for place in 0..8 {
            let value = self.rng.byte();
            self.push(host(self.swept, 1 << place, value));
        }
        self.push_look(u32::from(self.swept) & !3);
        self.swept = self.swept.wrapping_add(1);
    }

    fn some_reads(&mut self) {
        for _ in 0..1 + self.rng.below(5) {
            let (offset, lanes) = (aligned(&mut self.rng), self.read_lanes());
            self.push_read(offset, lanes);
        }
    }

    fn reads_by_all_lanes(&mut self) {
        let offset = aligned(&mut self.rng);
        for lanes in 0..16 {
            self.push(read(offset, lanes));
        }
    }

    fn some_writes(&mut self) {
        for _ in 0..1 + self.rng.below(4) {
            let offset = if self.rng.one_in(2) {
                self.any_guest_dword()
            } else {
                aligned(&mut self.rng)
            };
            let (lanes, value) = (self.lanes(), self.rng.telling_dword());
            self.push_write(offset, lanes, value);
            self.push_look(offset);
        }
    }

    fn unaligned(&mut self) {
        for _ in 0..1 + self.rng.below(3) {
            let offset = u32::from(self.rng.byte() | 1 << self.rng.below(2));
            let (lanes, value) = (self.lanes(), self.rng.telling_dword());
            if self.rng.one_in(2) {
                self.push(write(offset, lanes, value));
                self.push_look(offset & !3);
            } else {
                self.push(read(offset, lanes));
            }
        }
    }

    fn read_everything(&mut self) {
        for offset in (0..256).step_by(4) {
            self.push(read(offset, 0xF));
        }
    }
}

/// Busy phases.
impl Session {
    /// Puts a busy phase before what is left of the scene. It is about the
    /// window if the scene is, and now and then in another of the console.
    fn busy_phase(&mut self) {
        let rest = std::mem::take(&mut self.steps);
        let console = self.mode == Mode::Console;
        if goes_on_in_window(&rest) || console && self.rng.one_in(8) {
            self.busy_window();
        } else {
            self.busy_function();
        }
        self.steps.extend(rest);
    }

    /// Accesses of every kind but to the window, the end signal, and a look at
    /// what they were aimed at.
    fn busy_function(&mut self) {
        let dwords = self.busy_accesses();
        self.push_end_signal();
        for dword in dwords.into_iter().take(3) {
            self.look_at(dword);
        }
        if self.mode == Mode::Console && self.rng.one_in(5) {
            self.push(port_read(0x0CF8, 4));
        }
    }

    /// An end signal, now and then with a second one.
    fn push_end_signal(&mut self) {
        self.push(end_signal());
        if self.rng.one_in(10) {
            self.push(end_signal());
        }
    }

    /// Some lines while busy, none at times, and the dwords that they would
    /// change if the function weren't busy, or do change.
    fn busy_accesses(&mut self) -> Vec<u32> {
        let most = self.rng.pick(&[4, 12, 20]);
        let length = self.rng.index(most + 1);
        let mut dwords = Vec::new();
        while self.steps.len() < length {
            dwords.extend(self.busy_access());
        }
        self.steps.truncate(length);
        dwords
    }

    /// An access while busy, and its dword if it is a write or a host update.
    fn busy_access(&mut self) -> Option<u32> {
        if self.mode == Mode::Console && self.rng.one_in(2) {
            self.busy_console_access();
            return None;
        }
        match self.rng.below(9) {
            0..=3 => Some(self.busy_write()),
            4 | 5 => Some(self.push_host()),
            _ => {
                self.busy_look();
                None
            }
        }
    }

    /// A write to where it would matter, AFCTL too, and its dword.
    fn busy_write(&mut self) -> u32 {
        let once = self.rng.pick(WRITE_ONCE_DWORDS);
        let (kept, reset) = (self.rng.pick(KEPT_DWORDS), self.rng.pick(RESET_DWORDS));
        let any = aligned(&mut self.rng);
        let dword = if self.has_open_field() && self.rng.one_in(2) {
            once
        } else {
            self.rng
                .pick(&[once, kept, kept, reset, reset, 0x60, 0xA8, 0xA8, any])
        };
        let (lanes, value) = (self.lanes(), self.rng.telling_dword());
        let value = self.rng.pick(&[value, value | 1]);
        self.push_write(dword, lanes, value);
        dword
    }

    /// Whether some write-once field is open.
    fn has_open_field(&self) -> bool {
        self.twin.record().closed.contains(&0)
    }

    /// Reads, of AFCTL often, refused accesses, or a platform reset.
    fn busy_look(&mut self) {
        let lanes = self.read_lanes();
        match self.rng.below(12) {
            0..=3 => self.push_read(0xA8, lanes),
            4..=9 => self.some_reads(),
            10 => self.unaligned(),
            _ => self.push(b"P".to_vec()),
        }
    }

    fn busy_console_access(&mut self) {
        match self.rng.below(16) {
            0..=7 => self.steps.push_back(Step::NearMemoryBase),
            8 => self.steps.push_back(Step::NearIoBase),
            9 | 10 => self.walks(),
            11 | 12 => self.latch_and_data(),
            13 => self.push(port_read(0x0CF8, 4)),
            14 => self.ports_around(),
            _ => self.probes(),
        }
    }

    /// A read of the dword; a write-once field may be written to before, which
    /// shows whether it is still open.
    fn look_at(&mut self, dword: u32) {
        if WRITE_ONCE_DWORDS.contains(&dword) && self.rng.one_in(2) {
            let (lanes, value) = (self.lanes(), self.rng.telling_dword());
            self.push_write(dword, lanes, value);
        }
        self.push_look(dword);
    }
}

/// Scenes of the console.
impl Session {
    /// The latch, right or wrong, read back, and data accesses through it, some
    /// with a read of the same bytes behind them.
    fn latch_and_data(&mut self) {
        let latch = latch(&mut self.rng);
        self.push(port_write(0x0CF8, 4, latch));
        if self.rng.one_in(3) {
            self.push(port_read(0x0CF8, 4));
        }
        for _ in 0..1 + self.rng.below(4) {
            let port = 0x0CFC + self.rng.below(4) as u32;
            let width = self.rng.pick(&[1, 2, 4]);
            self.push_port_access(port, width);
            if self.rng.one_in(2) {
                self.push(port_read(port, width));
            }
        }
    }

    /// Ports and widths that are the function's and many that aren't.
    fn ports_around(&mut self) {
        for _ in 0..1 + self.rng.below(4) {
            let any = u32::from(self.rng.dword() as u16);
            let near = 0x0CF5 + self.rng.below(14) as u32;
            let top = 0xFFFC + self.rng.below(4) as u32;
            let mirror = near | 0x1000 << self.rng.below(4);
            let port = self
                .rng
                .pick(&[near, near, near, near, near, any, top, mirror]);
            let any_width = self.rng.below(16) as u32;
            let width = self.rng.pick(&[1, 2, 4, any_width]);
            self.push_port_access(port, width);
        }
    }

    fn push_port_access(&mut self, port: u32, width: u32) {
        if self.rng.one_in(2) {
            let value = self.rng.telling_dword();
            self.push(port_write(port, width, value));
        } else {
            self.push(port_read(port, width));
        }
    }

    /// Bases, enables, power and size code, and then claims, now and then with
    /// a function reset behind them.
    fn claims(&mut self) {
        self.set_up_windows();
        for _ in 0..4 + self.rng.below(10) {
            let io = self.rng.one_in(4);
            self.steps.push_back(if io {
                Step::NearIoBase
            } else {
                Step::NearMemoryBase
            });
        }
        if self.rng.one_in(2) {
            self.push_write(0xA8, 1, 1);
        }
    }

    fn set_up_windows(&mut self) {
        let any = self.rng.dword();
        let command = self.rng.pick(&[7, 7, 7, 7, 3, 2, 1, any]);
        self.push_write(0x04, 0x1, command);
        let power = self.rng.pick(&[0, 0, 0, 0, 0, 3]);
        self.push_write(0xD4, 0x1, power);
        if self.rng.one_in(2) {
            self.write_size_code();
        }
        let (high, low) = (self.base_high(), self.base_low());
        self.push_write(0x1C, 0xF, high);
        self.push_write(0x18, 0xF, low);
        let (other_high, other_low) = (self.base_high(), self.base_low());
        let inside = low ^ self.rng.dword() >> 3;
        let (high, low) = self
            .rng
            .pick(&[(high, low), (high, inside), (other_high, other_low)]);
        self.push_write(0x14, 0xF, high);
        self.push_write(0x10, 0xF, low);
        let io = self.rng.telling_dword();
        self.push_write(0x20, 0xF, io);
    }

    fn base_high(&mut self) -> u32 {
        let any = self.rng.telling_dword();
        self.rng.pick(&[0, 0, u32::MAX, 1, any])
    }

    fn base_low(&mut self) -> u32 {
        let any = self.rng.telling_dword();
        self.rng
            .pick(&[u32::MAX, 0xE000_0000, 0xD800_0000, 0xF780_0000, 0, any, any])
    }

    /// A memory address near one of the bases, or at either end of memory.
    fn address(&mut self) -> u64 {
        let rng = &mut self.rng;
        let bases = [self.twin.translation_base(), self.twin.aperture_base()];
        let base = rng.pick(&bases);
        let size = 1u64 << rng.pick(&[22, 27, 28, 29]);
        match rng.below(12) {
            0 => base,
            1..=4 => base.wrapping_add(rng.below(size)),
            5 => base.wrapping_add(size),
            6 => base.wrapping_add(size - 1),
            7 => base.wrapping_sub(1),
            8 => base.wrapping_sub(rng.below(size)),
            9 => base ^ 1 << rng.below(64) ^ rng.below(size),
            10 => rng.pick(&[0, u64::MAX, u64::MAX - 0x3F_FFFF, 0xFFFF_FFFF, 1 << 32]),
            _ => rng.qword(),
        }
    }

    /// A port near the I/O base, or at either end.
    fn port(&mut self) -> u16 {
        let rng = &mut self.rng;
        let base = self.twin.io_base() as u16;
        match rng.below(10) {
            0..=3 => base.wrapping_add(rng.below(64) as u16),
            4 => base.wrapping_add(64),
            5 => base.wrapping_sub(1),
            6 => base ^ 1 << rng.below(16),
            7 => rng.pick(&[0, 0xFFFF, 0xFFC0, 0x3F, 0x40]),
            _ => rng.dword() as u16,
        }
    }

    /// Readbacks of every kind, with few bits above the kind.
    fn probes(&mut self) {
        for _ in 0..1 + self.rng.below(5) {
            let kind = self.rng.below(16) as u32;
            let (low, high) = (self.readback(), self.readback());
            self.push(probe(low & !0xF | kind, high));
        }
    }

    fn readback(&mut self) -> u32 {
        let one = 1 << self.rng.below(32);
        let telling = self.rng.telling_dword();
        self.rng.pick(&[0, 0, u32::MAX, one, one, telling])
    }

    /// Ones written to a base, and what may be read back.
    fn size_probe_of_a_base(&mut self) {
        let base = self.rng.pick(&[0x10, 0x18, 0x20]);
        self.push_write(base, 0xF, u32::MAX);
        self.push_look(base);
        if base != 0x20 {
            self.push_write(base + 4, 0xF, u32::MAX);
            self.push_look(base + 4);
        }
        let low = self
            .rng
            .pick(&[0xFFC0_0004, 0xF800_000C, 0xF000_000C, 0xE000_000C, 0xFFC1]);
        self.push(probe(low, u32::MAX));
    }

    fn walks(&mut self) {
        for _ in 0..1 + self.rng.below(3) {
            let any = self.rng.byte();
            let wanted = self
                .rng
                .pick(&[0x01, 0x05, 0x13, 0x09, 0x10, 0x00, 0xFF, any]);
            self.push(walk(wanted));
        }
    }
}

/// A value for the latch: mostly right, else wrong in one place or all over.
fn latch(rng: &mut Rng) -> u32 {
    let offset = if rng.one_in(2) {
        rng.pick(&[0x00, 0x04, 0x18, 0x2C, 0x34, 0x60, 0xA8, 0xD4, 0xE8])
    } else {
        rng.below(256) as u32
    };
    let right = 0x8000_1000 | offset;
    match rng.below(12) {
        0 => right & 0x7FFF_FFFF,
        1 => right ^ 1 << (16 + rng.below(8)),
        2 => right ^ 1 << (11 + rng.below(5)),
        3 => right ^ 1 << (8 + rng.below(3)),
        4 => rng.telling_dword(),
        5 | 6 => right | rng.dword() & 0x7F00_0000,
        _ => right,
    }
}

/// A multiple of 4 below 256.
pub(crate) fn aligned(rng: &mut Rng) -> u32 {
    rng.below(64) as u32 * 4
}

/// Not all lanes, and none of them more often than chance would have it.
pub(crate) fn fewer_lanes(rng: &mut Rng) -> u32 {
    if rng.one_in(5) {
        0
    } else {
        rng.below(15) as u32
    }
}

/// The mask of host bits in a byte.
fn host_bits(offset: u8) -> u8 {
    (0..8)
        .map(|place| 1 << place)
        .filter(|mask| map::paper().host_may_change(usize::from(offset), *mask))
        .fold(0, |bits, mask| bits | mask)
}

pub(crate) fn write(offset: u32, lanes: u32, value: u32) -> Vec<u8> {
    format!("W {offset:02X} {lanes:X} {value:08X}").into_bytes()
}

pub(crate) fn read(offset: u32, lanes: u32) -> Vec<u8> {
    format!("R {offset:02X} {lanes:X}").into_bytes()
}

pub(crate) fn host(offset: u8, mask: u8, value: u8) -> Vec<u8> {
    format!("H {offset:02X} {mask:02X} {value:02X}").into_bytes()
}

fn end_signal() -> Vec<u8> {
    b"E".to_vec()
}

fn port_write(port: u32, width: u32, value: u32) -> Vec<u8> {
    format!("O {port:04X} {width:X} {value:08X}").into_bytes()
}

fn port_read(port: u32, width: u32) -> Vec<u8> {
    format!("I {port:04X} {width:X}").into_bytes()
}

fn claim_memory(address: u64) -> Vec<u8> {
    format!("A {address:016X}").into_bytes()
}

fn claim_port(port: u16) -> Vec<u8> {
    format!("N {port:04X}").into_bytes()
}

fn probe(low: u32, high: u32) -> Vec<u8> {
    format!("S {low:08X} {high:08X}").into_bytes()
}

pub(crate) fn walk(wanted: u8) -> Vec<u8> {
    format!("K {wanted:02X}").into_bytes()
}

/// Writes a session of so many lines. The last one may lack its LF, and may
/// be cut short then, but never to nothing.
pub fn write_session(out: &mut impl Write, seed: u64, lines: u64, mode: Mode) -> io::Result<()> {
    let mut session = Session::new(seed, mode);
    for _ in 1..lines {
        out.write_all(&session.next_line())?;
        out.write_all(b"\n")?;
    }
    if lines > 0 {
        let line = session.next_line();
        out.write_all(&last_line(&mut session.rng, line))?;
    }
    out.flush()
}

/// The last line, with its LF if it is to have one.
pub(crate) fn last_line(rng: &mut Rng, mut line: Vec<u8>) -> Vec<u8> {
    match rng.below(3) {
        0 if !line.is_empty() => line.truncate(rng.index(line.len()) + 1),
        1 if !line.is_empty() => {}
        _ => line.push(b'\n'),
    }
    line
}

/// A session of so many lines in memory.
pub fn text(seed: u64, lines: u64, mode: Mode) -> Vec<u8> {
    let mut text = Vec::new();
    write_session(&mut text, seed, lines, mode).expect("memory takes every write");
    text
}
