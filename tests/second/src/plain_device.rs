//! The device of a register sheet: 2,048 bits under the plain rule alone, and
//! the session player on it.

use crate::access::Access;
use crate::line::{parse, Answer, Command, Mode};
use crate::map::{BITS, BYTES};
use crate::player::{Listener, Player};
use crate::refusal::Refusal;
use crate::sheet::Sheet;

/// A bit: what the sheet says of it, and what it holds. An unlisted bit is
/// 0 and in no mask.
#[derive(Clone, Copy, Debug, Default, PartialEq, Eq)]
struct Bit {
    default: bool,
    guest: bool,
    host: bool,
    reset: bool,
    value: bool,
}

/// The device. Bit `n` is bit `n % 8` of byte `n / 8`.
#[derive(Clone, Debug, PartialEq, Eq)]
pub struct PlainDevice {
    bits: Vec<Bit>,
}

/// Whether the byte has bit `place`.
fn has(byte: u8, place: usize) -> bool {
    byte >> place & 1 == 1
}

impl PlainDevice {
    /// The sheet's device in its fresh state.
    pub fn fresh(sheet: &Sheet) -> PlainDevice {
        let mut bits = vec![Bit::default(); BITS];
        for register in &sheet.registers {
            for place in 0..register.bytes() * 8 {
                let of = |part: &[u8]| has(part[place / 8], place % 8);
                bits[register.at * 8 + place] = Bit {
                    default: of(&register.default),
                    guest: of(&register.guest),
                    host: of(&register.host),
                    reset: of(&register.reset),
                    value: of(&register.default),
                };
            }
        }
        PlainDevice { bits }
    }

    /// A guest read of a dword's enabled bytes, the others FF.
    pub fn guest_read(&self, offset: u32, lanes: u32) -> Result<u32, Refusal> {
        let access = Access::checked(offset, lanes)?;
        Ok(access.read_value(|at| self.byte(at)))
    }

    /// A guest write of a dword's enabled bytes.
    pub fn guest_write(&mut self, offset: u32, lanes: u32, value: u32) -> Result<(), Refusal> {
        let access = Access::checked(offset, lanes)?;
        for place in access.enabled_places() {
            let bit = &mut self.bits[access.offset * 8 + place];
            if bit.guest {
                bit.value = value >> place & 1 == 1;
            }
        }
        Ok(())
    }

    /// A host update of the masked bits of one byte.
    pub fn host_update(&mut self, offset: u32, mask: u8, value: u8) -> Result<(), Refusal> {
        let at = offset as usize;
        if at >= BYTES {
            return Err(Refusal::Offset);
        }
        let masked = || (0..8).filter(|place| has(mask, *place));
        if !masked().all(|place| self.bits[at * 8 + place].host) {
            return Err(Refusal::NotHost);
        }
        for place in masked() {
            self.bits[at * 8 + place].value = has(value, place);
        }
        Ok(())
    }

    /// A function reset: the bits under the reset masks return to default.
    pub fn function_reset(&mut self) {
        for bit in self.bits.iter_mut().filter(|bit| bit.reset) {
            bit.value = bit.default;
        }
    }

    /// A platform reset: the fresh state.
    pub fn platform_reset(&mut self) {
        for bit in &mut self.bits {
            bit.value = bit.default;
        }
    }

    /// The device's 256 bytes as a guest reads them.
    pub fn bytes(&self) -> [u8; BYTES] {
        std::array::from_fn(|at| self.byte(at))
    }

    /// One byte as a guest reads it.
    fn byte(&self, at: usize) -> u8 {
        (0..8)
            .filter(|place| self.bits[at * 8 + place].value)
            .fold(0, |byte, place| byte | 1 << place)
    }

    /// Carries out a command.
    fn perform(&mut self, command: Command) -> Answer {
        match command {
            Command::Write {
                offset,
                lanes,
                value,
            } => self.guest_write(offset, lanes, value).into(),
            Command::Read { offset, lanes } => self.guest_read(offset, lanes).into(),
            Command::Host {
                offset,
                mask,
                value,
            } => self.host_update(offset, mask, value).into(),
            Command::PlatformReset => {
                self.platform_reset();
                Answer::Done
            }
            Command::FunctionReset => {
                self.function_reset();
                Answer::Done
            }
            // The lines of the twin alone, which the mode doesn't know.
            _ => Answer::Refused(Refusal::Line),
        }
    }
}

impl Listener for PlainDevice {
    fn answer(&mut self, line: &[u8]) -> Answer {
        match parse(line, Mode::Sheet) {
            Some(command) => self.perform(command),
            None => Answer::Refused(Refusal::Line),
        }
    }
}

/// The answers of the sheet's fresh device to a whole session held in memory.
pub fn answers(sheet: &Sheet, session: &[u8]) -> Vec<u8> {
    Player::with(PlainDevice::fresh(sheet)).answers(session)
}
