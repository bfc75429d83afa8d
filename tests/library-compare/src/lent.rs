//! A record as a bench lends it, with bytes around it that nobody may touch.

use second::twin::Record;
use second::window::Register;

/// Bytes of a record.
pub const SIZE: usize = 288;
/// Where the port latch stands in it, the busy byte, and the window.
pub const LATCH: usize = 256;
pub const BUSY: usize = 263;
pub const WINDOW: usize = 264;
/// Bytes on each side; they leave the record aligned to 4 bytes and no more.
const BESIDE: usize = 20;

/// The record and its surroundings.
#[repr(C, align(16))]
#[derive(Clone, Copy, PartialEq, Eq)]
pub struct Lent {
    before: [u8; BESIDE],
    record: [u8; SIZE],
    behind: [u8; BESIDE],
}

impl Lent {
    /// A record of these bytes.
    pub fn new(record: [u8; SIZE]) -> Lent {
        Lent {
            before: [0xC3; BESIDE],
            record,
            behind: [0x3C; BESIDE],
        }
    }

    /// The record for the library.
    pub fn pointer(&mut self) -> *mut u8 {
        let pointer = self.record.as_mut_ptr();
        assert_eq!(pointer as usize % 8, 4);
        pointer
    }

    /// A byte of the record, or from SIZE on one behind it.
    pub fn byte(&mut self, at: usize) -> &mut u8 {
        match at.checked_sub(SIZE) {
            None => &mut self.record[at],
            Some(behind) => &mut self.behind[behind],
        }
    }

    /// Four bytes of the record, low first.
    fn dword(&self, at: usize) -> u32 {
        u32::from_le_bytes(self.record[at..at + 4].try_into().expect("4 bytes"))
    }

    /// Puts four bytes into the record, low first.
    pub fn put_dword(&mut self, at: usize, dword: u32) {
        self.record[at..at + 4].copy_from_slice(&dword.to_le_bytes());
    }

    /// What a register of the window holds.
    pub fn register(&self, register: Register) -> u32 {
        self.dword(place(register))
    }

    /// Makes a register of the window hold a number.
    pub fn put_register(&mut self, register: Register, number: u32) {
        self.put_dword(place(register), number);
    }

    /// The bytes beside the record.
    pub fn around(&self) -> ([u8; BESIDE], [u8; BESIDE]) {
        (self.before, self.behind)
    }

    /// The record's fields, by the layout that the header gives.
    pub fn fields(&self) -> Record {
        Record {
            bytes: self.record[..LATCH].try_into().expect("256 bytes"),
            latch: self.dword(LATCH),
            closed: self.record[LATCH + 4..BUSY].try_into().expect("3 bytes"),
            busy: self.record[BUSY],
            window: Register::ALL.map(|register| self.register(register)),
        }
    }

    /// Makes the record hold these fields, all of its bytes.
    pub fn store(&mut self, fields: &Record) {
        self.record[..LATCH].copy_from_slice(&fields.bytes);
        self.put_dword(LATCH, fields.latch);
        self.record[LATCH + 4..BUSY].copy_from_slice(&fields.closed);
        self.record[BUSY] = fields.busy;
        for (register, number) in Register::ALL.into_iter().zip(fields.window) {
            self.put_register(register, number);
        }
    }
}

/// Where a register of the window stands in the record.
fn place(register: Register) -> usize {
    WINDOW + 4 * register as usize
}
