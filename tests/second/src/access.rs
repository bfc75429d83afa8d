//! Accesses by dword and byte lanes, which the twin, its window and a sheet's
//! device share.

use crate::refusal::Refusal;

/// What a lane reads that isn't enabled: the bus pulls it high.
const UNDRIVEN: u8 = 0xFF;

/// Whether a dword starts at that offset.
fn starts_a_dword(offset: u32) -> bool {
    offset & 3 == 0
}

/// Refuses an offset that isn't that of a dword below 4 MB.
pub fn check_window_offset(offset: u32) -> Result<(), Refusal> {
    if offset > 0x3F_FFFF || !starts_a_dword(offset) {
        return Err(Refusal::WindowOffset);
    }
    Ok(())
}

/// An accepted dword access: an aligned offset and its lanes.
#[derive(Clone, Copy, Debug)]
pub struct Access {
    /// The dword's offset.
    pub offset: usize,
    lanes: u32,
}

impl Access {
    /// Accepts a direct access, or refuses it by offset and then by lanes.
    pub fn checked(offset: u32, lanes: u32) -> Result<Access, Refusal> {
        if offset > 255 || !starts_a_dword(offset) {
            return Err(Refusal::Offset);
        }
        Access::at(offset, lanes)
    }

    /// Accepts an access to the window, or refuses it by offset and then by lanes.
    pub fn in_window(offset: u32, lanes: u32) -> Result<Access, Refusal> {
        check_window_offset(offset)?;
        Access::at(offset, lanes)
    }

    /// Accepts an access to an offset that is in order, or refuses it by lanes.
    fn at(offset: u32, lanes: u32) -> Result<Access, Refusal> {
        if lanes > 15 {
            return Err(Refusal::Lanes);
        }
        Ok(Access {
            offset: offset as usize,
            lanes,
        })
    }

    /// Whether the access enables byte `at`.
    pub fn enables(self, at: usize) -> bool {
        (self.offset..self.offset + 4).contains(&at) && self.lanes >> (at - self.offset) & 1 == 1
    }

    /// The value of a read, from the bytes as a guest reads them: the
    /// enabled ones in their places, and ones in the lanes that nothing drives.
    pub fn read_value(self, byte: impl Fn(usize) -> u8) -> u32 {
        let lane = |at| if self.enables(at) { byte(at) } else { UNDRIVEN };
        u32::from_le_bytes([0, 1, 2, 3].map(|place| lane(self.offset + place)))
    }

    /// The places 0 to 31 in the dword whose bytes are enabled.
    pub fn enabled_places(self) -> impl Iterator<Item = usize> {
        (0..32).filter(move |place| self.enables_place(*place))
    }

    /// Whether the byte of that place in the dword is enabled.
    pub fn enables_place(self, place: usize) -> bool {
        self.enables(self.offset + place / 8)
    }
}
