//! Scenes of the window: changes of its registers by guest and host, accesses
//! around them, and claims that lead to them.

use std::collections::VecDeque;

use super::{fewer_lanes, write, Session, Step};
use crate::rng::Rng;
use crate::window::Register;

/// One change of a register in so many has a reset between it and the look.
const CHANGES_TO_A_RESET: u64 = 8;
/// One look at a dword in so many has a read of fewer lanes behind it.
const LOOKS_TO_FEWER_LANES: u64 = 4;

/// The registers, those with more rules more often.
const WEIGHTED_REGISTERS: &[Register] = &[
    Register::FaultReg,
    Register::FaultReg,
    Register::FaultReg,
    Register::FaultReg,
    Register::Assrreq,
    Register::Assrreq,
    Register::Assrreq,
    Register::Assrreq,
    Register::Mtouud,
    Register::MtouudHigh,
    Register::Mbdsm,
    Register::CycleSum,
    Register::CycleSum,
];
/// Offsets on both sides of the window's ends.
const EDGES: &[u32] = &[0x00_0000, 0x3F_FFFC, 0x3F_FFFF, 0x40_0000, 0xFF_FFFC];
/// Lines near the window's, all of them refused: with numbers as short as the
/// paper has them, as long as others are, too few or too many.
pub(crate) const NEAR_WINDOW: &[&[u8]] = &[
    b"U 0810C F",
    b"U 4094 F",
    b"U 0000810C F",
    b"U 00810C",
    b"U 00810C F 00000000",
    b"V 0810C F 000F000F",
    b"V 00810C 000F000F",
    b"V 00810C F 000F",
    b"V 00810C F",
    b"C",
    b"C F",
    b"C 0000000F 0000000F",
    b"F",
    b"F 77FE",
    b"F 004094 000077FE",
    b"T",
    b"T 1",
    b"T 138078 00000001",
    b"Y 1080C0 FFF00001",
    b"Y 1080C0 01 01",
    b"Y 1080C0 F FFF00001 00000000",
    b"Y 001080C0 FFF00001 00000000",
    b"Y 108084 7F 00000000",
    b"Y 1080C0 FFF00001 000000000",
];

/// Scenes.
impl Session {
    pub(super) fn window_scene(&mut self) {
        match self.rng.below(20) {
            0..=11 => self.changes_of_a_register(),
            12..=16 => self.around_the_registers(),
            17..=18 => self.through_claims(),
            _ => self.window_reads_by_all_lanes(),
        }
    }

    /// Changes of one register, each with a look at it, and now and then with
    /// a reset in between.
    fn changes_of_a_register(&mut self) {
        let register = self.rng.pick(WEIGHTED_REGISTERS);
        for _ in 0..3 + self.rng.below(6) {
            self.push_change(register);
            if self.rng.one_in(CHANGES_TO_A_RESET) {
                self.push_reset();
            }
            self.push_window_look(register.offset());
        }
        if self.rng.one_in(4) {
            self.read_all_registers();
        }
    }

    /// A platform reset, or the start of a function reset, before which the
    /// guest may leave the host something to do.
    fn push_reset(&mut self) {
        if self.rng.one_in(3) {
            return self.push(b"P".to_vec());
        }
        match self.rng.below(4) {
            0 => self.push(window_write(Register::Assrreq.offset(), 0xF, u32::MAX)),
            1 => self.push(window_write(Register::FaultReg.offset(), 0xF, 0)),
            _ => {}
        }
        self.push(write(0xA8, 0x1, 1));
    }

    /// Accesses at any offsets, and looks at where they may have gone.
    fn around_the_registers(&mut self) {
        for _ in 0..3 + self.rng.below(5) {
            if let Some(dword) = self.push_access_anywhere() {
                self.push_window_look(dword);
            }
        }
    }

    /// The windows' bases and enables, and then claims of the addresses at which
    /// the registers lie, each with the accesses that it leads to.
    fn through_claims(&mut self) {
        self.set_up_windows();
        for register in Register::ALL {
            self.steps.push_back(Step::InTranslation(register.offset()));
            if self.rng.one_in(2) {
                self.steps.push_back(Step::WindowWrite(register.offset()));
            }
            self.push_window_look(register.offset());
        }
    }

    fn read_all_registers(&mut self) {
        for register in Register::ALL {
            self.push(window_read(register.offset(), 0xF));
        }
    }

    fn window_reads_by_all_lanes(&mut self) {
        let register = self.telling_register();
        for lanes in 0..16 {
            self.push(window_read(register.offset(), lanes));
        }
    }
}

/// Busy phases.
impl Session {
    /// Accesses while busy, the end signal, and a look at where they may have
    /// gone.
    pub(super) fn busy_window(&mut self) {
        let dwords: Vec<u32> = (0..2 + self.rng.below(8))
            .filter_map(|_| self.busy_window_access())
            .collect();
        self.push_end_signal();
        for (index, dword) in dwords.iter().enumerate() {
            if !dwords[..index].contains(dword) {
                self.push_window_look(*dword);
            }
        }
    }

    /// An access while busy, and its dword if it may change something.
    fn busy_window_access(&mut self) -> Option<u32> {
        if self.rng.one_in(3) {
            return self.push_access_anywhere();
        }
        let register = self.rng.pick(WEIGHTED_REGISTERS);
        self.push_change(register);
        Some(register.offset())
    }
}

/// Accesses.
impl Session {
    /// What the guest or the host may do to a register, or might be thought to.
    fn push_change(&mut self, register: Register) {
        let by_the_guest = self.rng.one_in(match register {
            Register::FaultReg | Register::Assrreq => 2,
            _ => 4,
        });
        self.steps.push_back(if by_the_guest {
            Step::WindowWrite(register.offset())
        } else {
            Step::HostChange(register)
        });
    }

    /// An access by the guest or an update by the host at any offset, and the
    /// dword that it changes if offsets are rounded and wrapped.
    fn push_access_anywhere(&mut self) -> Option<u32> {
        let register = self.telling_register();
        let offset = offset_near(&mut self.rng, register);
        match self.rng.below(3) {
            0 => self.steps.push_back(Step::WindowWrite(offset)),
            1 => {
                let line = self.mirror_update_line(offset);
                self.push(line);
            }
            _ => {
                let lanes = self.read_lanes();
                self.push(window_read(offset, lanes));
                return None;
            }
        }
        Some(within(offset))
    }

    /// A register that holds something, if there is one, or any.
    fn telling_register(&mut self) -> Register {
        let telling: Vec<Register> = Register::ALL
            .into_iter()
            .filter(|register| self.held(*register) != 0)
            .collect();
        if telling.is_empty() || self.rng.one_in(3) {
            self.rng.pick(&Register::ALL)
        } else {
            self.rng.pick(&telling)
        }
    }

    /// A guest read of a whole dword, and now and then one of fewer lanes.
    fn push_window_look(&mut self, offset: u32) {
        self.push(window_read(offset, 0xF));
        if self.rng.one_in(LOOKS_TO_FEWER_LANES) {
            let lanes = fewer_lanes(&mut self.rng);
            self.push(window_read(offset, lanes));
        }
    }

    /// What a register holds.
    fn held(&self, register: Register) -> u32 {
        self.twin.record().window[register as usize]
    }
}

/// Lines for the window as it stands.
impl Session {
    /// A guest write of a kind that tells something at the register there.
    pub(super) fn window_write_line(&mut self, offset: u32) -> Vec<u8> {
        let (lanes, value) = match Register::at(within(offset)) {
            Some(Register::Assrreq) => self.request(),
            Some(Register::FaultReg) => self.clear(),
            _ => (self.lanes(), self.rng.telling_dword()),
        };
        window_write(offset, lanes, value)
    }

    /// Lanes and value of a write to ASSRREQ: new requests, new ones without
    /// their mask bits, zeros over the old ones, new ones with a lane off, or any.
    fn request(&mut self) -> (u32, u32) {
        let old = self.held(Register::Assrreq) & 0xF;
        let rng = &mut self.rng;
        let some = 1 + rng.below(15) as u32;
        let new = if some & !old == 0 { some } else { some & !old };
        let right = new | new << 16;
        let (lanes, any) = (rng.below(16) as u32, rng.telling_dword());
        let others = rng.pick(&[0, any & 0xFFF0_FFF0]);
        match rng.below(8) {
            0 => (0xF, right | others),
            1 | 2 => (lanes | 0x5, right | others),
            3 => (lanes | 0x5, new | (new ^ 0xF) << 16 | others),
            4 => (lanes | 0x5, some & !old | 0x000F_0000 | others),
            5 => (lanes & !0x4 | 0x1, right | others),
            6 => (lanes & !0x1 | 0x4, right | others),
            _ => (lanes, any),
        }
    }

    /// Lanes and value of a write to FAULT_REG: a clear, by its lane alone too,
    /// one with its lane off, or one with a one.
    fn clear(&mut self) -> (u32, u32) {
        let rng = &mut self.rng;
        let (lanes, any) = (rng.below(16) as u32, rng.telling_dword());
        match rng.below(6) {
            0 => (lanes & !0x2 | 0x1, any & !1),
            1 => (lanes | 0x1, any & !1),
            2 | 3 => (lanes & !0x1, any & !1),
            _ => (lanes | 0x1, any | 1),
        }
    }

    /// What the host may do to a register, or might be thought to.
    pub(super) fn host_change_line(&mut self, register: Register) -> Vec<u8> {
        if self.rng.one_in(6) {
            return self.mirror_update_line(register.offset());
        }
        match register {
            Register::FaultReg => self.fault_line(),
            Register::Assrreq => self.completion_line(),
            Register::CycleSum => self.cycles_line(),
            Register::Mtouud | Register::MtouudHigh | Register::Mbdsm => {
                self.mirror_update_line(register.offset())
            }
        }
    }

    /// A fault word, good or with a bit that it may not have.
    fn fault_line(&mut self) -> Vec<u8> {
        let rng = &mut self.rng;
        let some = rng.dword() & 0x77FE;
        let (one, any) = (1 << rng.below(32), rng.telling_dword());
        fault(rng.pick(&[some, some, some, 0, 0x77FE, some | 1, some | one, any]))
    }

    /// The completion of some requests, of all, or of what can be none.
    fn completion_line(&mut self) -> Vec<u8> {
        let old = self.held(Register::Assrreq) & 0xF;
        let rng = &mut self.rng;
        let (some, one) = (rng.below(16) as u32, 1 << rng.below(32));
        complete(rng.pick(&[some, some, old, old & some, some | one]))
    }

    /// A count that just reaches the top, wraps to 0, goes on, or is any.
    fn cycles_line(&mut self) -> Vec<u8> {
        let to_the_top = !self.held(Register::CycleSum);
        let (any, past) = (self.rng.telling_dword(), to_the_top.wrapping_add(1));
        add_cycles(self.rng.pick(&[to_the_top, past, any, any, 1, u32::MAX]))
    }

    /// An update with a mask inside or outside the one of the register there.
    fn mirror_update_line(&mut self, offset: u32) -> Vec<u8> {
        let bits = Register::at(within(offset)).map_or(0, Register::update_mask);
        let (some, one) = (self.rng.dword(), 1 << self.rng.below(32));
        let mask = match (bits, self.rng.below(9)) {
            (_, 0) => 0,
            (_, 1) => some,
            (_, 2) => bits | one,
            (0, 3..=5) => one,
            (_, 3..=5) => bits,
            _ => bits & some,
        };
        mirror_update(offset, mask, self.rng.telling_dword())
    }
}

/// The dword of the window to which an offset goes if it is rounded and wrapped.
fn within(offset: u32) -> u32 {
    offset & 0x3F_FFFC
}

/// The register's offset, one near it or far from it, inside or outside the
/// window, aligned or not.
fn offset_near(rng: &mut Rng, register: Register) -> u32 {
    let register = register.offset();
    match rng.below(13) {
        0 => register,
        1 | 2 => register + 1 + rng.below(3) as u32,
        3 | 4 => rng.pick(&[register - 4, register + 4]),
        5 => register ^ 1 << rng.below(24),
        6..=8 => register ^ 1 << (16 + rng.below(8)),
        9..=11 => rng.pick(EDGES),
        _ => rng.dword() & 0xFF_FFFF,
    }
}

/// A line of any of the window's forms, outside any scene.
pub(crate) fn stray_window_line(rng: &mut Rng) -> Vec<u8> {
    let register = rng.pick(&Register::ALL);
    let offset = offset_near(rng, register);
    match rng.below(8) {
        0 | 1 => window_write(offset, rng.below(16) as u32, rng.telling_dword()),
        2 | 3 => window_read(offset, rng.below(16) as u32),
        4 => complete(rng.below(16) as u32),
        5 => fault(rng.dword() & 0x77FE),
        6 => add_cycles(rng.telling_dword()),
        _ => mirror_update(offset, rng.telling_dword(), rng.telling_dword()),
    }
}

/// Whether a scene goes on with a read in the window.
pub(super) fn goes_on_in_window(rest: &VecDeque<Step>) -> bool {
    matches!(rest.front(), Some(Step::Line(line)) if line.starts_with(b"U "))
}

fn window_write(offset: u32, lanes: u32, value: u32) -> Vec<u8> {
    format!("V {offset:06X} {lanes:X} {value:08X}").into_bytes()
}

fn window_read(offset: u32, lanes: u32) -> Vec<u8> {
    format!("U {offset:06X} {lanes:X}").into_bytes()
}

fn complete(mask: u32) -> Vec<u8> {
    format!("C {mask:08X}").into_bytes()
}

fn fault(word: u32) -> Vec<u8> {
    format!("F {word:08X}").into_bytes()
}

fn add_cycles(count: u32) -> Vec<u8> {
    format!("T {count:08X}").into_bytes()
}

fn mirror_update(offset: u32, mask: u32, value: u32) -> Vec<u8> {
    format!("Y {offset:06X} {mask:08X} {value:08X}").into_bytes()
}
