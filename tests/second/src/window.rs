//! The Broadwell window: registers that a guest reaches by an offset inside
//! GTTMMADR, each of 32 bits and with a rule of its own. Every other dword of
//! the window reads 0 and ignores writes.

use crate::access::{check_window_offset, Access};
use crate::refusal::Refusal;

/// How many registers the window has.
pub const REGISTERS: usize = 6;

/// FAULT_REG's bit that says that a fault is held.
const VALID: usize = 0;
/// The bits that a fault word may have.
const FAULT_WORD: u32 = 0x77FE;

/// ASSRREQ's bits that stand for a request each.
const REQUESTS: u32 = 0xF;
/// ASSRREQ's mask starts here; a request's mask bit is so many places higher.
const MASK: usize = 16;

/// A register of the window.
#[derive(Clone, Copy, Debug, PartialEq, Eq)]
pub enum Register {
    /// The first fault since the guest cleared the last one.
    FaultReg,
    /// Requests, which the guest makes and the host completes.
    Assrreq,
    /// A mirror, its low dword.
    Mtouud,
    /// Its high dword.
    MtouudHigh,
    /// A mirror.
    Mbdsm,
    /// The DRAM cycle sum.
    CycleSum,
}

impl Register {
    /// All of them by ascending offset, which is their order in a record.
    pub const ALL: [Register; REGISTERS] = [
        Register::FaultReg,
        Register::Assrreq,
        Register::Mtouud,
        Register::MtouudHigh,
        Register::Mbdsm,
        Register::CycleSum,
    ];

    /// Where it lies in the window.
    pub fn offset(self) -> u32 {
        match self {
            Register::FaultReg => 0x00_4094,
            Register::Assrreq => 0x00_810C,
            Register::Mtouud => 0x10_8080,
            Register::MtouudHigh => 0x10_8084,
            Register::Mbdsm => 0x10_80C0,
            Register::CycleSum => 0x13_8078,
        }
    }

    /// The register at an offset.
    pub fn at(offset: u32) -> Option<Register> {
        Register::ALL
            .into_iter()
            .find(|register| register.offset() == offset)
    }

    /// The bits that a device update may change: none but a mirror's.
    pub fn update_mask(self) -> u32 {
        match self {
            Register::Mbdsm | Register::Mtouud => 0xFFF0_0001,
            Register::MtouudHigh => 0x7F,
            Register::FaultReg | Register::Assrreq | Register::CycleSum => 0,
        }
    }
}

/// What a register holds, place by place.
type Bits = [bool; 32];

/// Whether the dword has bit `place`.
fn has(dword: u32, place: usize) -> bool {
    dword >> place & 1 == 1
}

/// The places of a dword's ones.
fn places(dword: u32) -> impl Iterator<Item = usize> {
    (0..32).filter(move |place| has(dword, *place))
}

fn bits_of(dword: u32) -> Bits {
    std::array::from_fn(|place| has(dword, place))
}

fn dword_of(bits: &Bits) -> u32 {
    (0..32)
        .filter(|place| bits[*place])
        .fold(0, |dword, place| dword | 1 << place)
}

/// Refuses what the host gives if it has a bit outside the mask.
fn check_host_bits(given: u32, mask: u32) -> Result<(), Refusal> {
    if places(given).all(|place| has(mask, place)) {
        Ok(())
    } else {
        Err(Refusal::NotHost)
    }
}

/// What the registers hold, in the order of [`Register::ALL`].
#[derive(Clone, Debug, Default, PartialEq, Eq)]
pub struct Window {
    held: [Bits; REGISTERS],
}

/// What is held.
impl Window {
    /// The window whose registers hold these dwords.
    pub fn of_dwords(dwords: [u32; REGISTERS]) -> Window {
        Window {
            held: dwords.map(bits_of),
        }
    }

    /// What the registers hold.
    pub fn dwords(&self) -> [u32; REGISTERS] {
        std::array::from_fn(|index| dword_of(&self.held[index]))
    }

    fn bits(&self, register: Register) -> &Bits {
        &self.held[register as usize]
    }

    fn bits_mut(&mut self, register: Register) -> &mut Bits {
        &mut self.held[register as usize]
    }
}

/// The guest's side.
impl Window {
    /// One byte as a guest reads it.
    pub fn byte(&self, at: usize) -> u8 {
        let (offset, lane) = (at & !3, at % 4);
        Register::at(offset as u32)
            .map_or(0, |register| self.shown(register))
            .to_le_bytes()[lane]
    }

    /// A register as a guest reads it: what it holds, but of ASSRREQ no mask.
    fn shown(&self, register: Register) -> u32 {
        let mut bits = *self.bits(register);
        if register == Register::Assrreq {
            bits[MASK..].fill(false);
        }
        dword_of(&bits)
    }

    /// An accepted guest write.
    pub fn guest_write(&mut self, access: Access, value: u32) {
        match Register::at(access.offset as u32) {
            Some(Register::FaultReg) => self.clear_fault(access, value),
            Some(Register::Assrreq) => self.request(access, value),
            Some(Register::Mtouud | Register::MtouudHigh | Register::Mbdsm) => {}
            Some(Register::CycleSum) | None => {}
        }
    }

    /// Clears all of FAULT_REG if a zero is written to its valid bit.
    fn clear_fault(&mut self, access: Access, value: u32) {
        if access.enables_place(VALID) && !has(value, VALID) {
            *self.bits_mut(Register::FaultReg) = Bits::default();
        }
    }

    /// Sets each request to whose bit and mask bit ones are written.
    fn request(&mut self, access: Access, value: u32) {
        let one = |place| access.enables_place(place) && has(value, place);
        for place in places(REQUESTS) {
            if one(place) && one(place + MASK) {
                self.bits_mut(Register::Assrreq)[place] = true;
            }
        }
    }
}

/// The host's side.
impl Window {
    /// Completes the masked requests, which clears them.
    pub fn complete(&mut self, mask: u32) -> Result<(), Refusal> {
        check_host_bits(mask, REQUESTS)?;
        for place in places(mask) {
            self.bits_mut(Register::Assrreq)[place] = false;
        }
        Ok(())
    }

    /// Holds a fault word as a valid one, or loses it if there is one already.
    pub fn fault(&mut self, word: u32) -> Result<(), Refusal> {
        check_host_bits(word, FAULT_WORD)?;
        let bits = self.bits_mut(Register::FaultReg);
        if !bits[VALID] {
            *bits = bits_of(word);
            bits[VALID] = true;
        }
        Ok(())
    }

    /// Adds to the cycle sum, bit by bit; the carry out of the last bit goes.
    pub fn add_cycles(&mut self, count: u32) {
        let mut carry = false;
        let sum = self.bits_mut(Register::CycleSum);
        for (bit, more) in sum.iter_mut().zip(bits_of(count)) {
            let ones = [*bit, more, carry].iter().filter(|one| **one).count();
            *bit = ones % 2 == 1;
            carry = ones > 1;
        }
    }

    /// Changes the masked bits of a mirror.
    pub fn mirror_update(&mut self, offset: u32, mask: u32, value: u32) -> Result<(), Refusal> {
        check_window_offset(offset)?;
        let register = Register::at(offset);
        check_host_bits(mask, register.map_or(0, Register::update_mask))?;
        if let Some(mirror) = register {
            for place in places(mask) {
                self.bits_mut(mirror)[place] = has(value, place);
            }
        }
        Ok(())
    }
}
