//! The twin of the graphics function, for Rust: one state record that the
//! library updates where it lies, and every entry over it.
//!
//! ```
//! use twin::Twin;
//!
//! let mut t = Twin::fresh();
//! t.write(0x2C, 0x3, 0x1234)?; // SVID2 is written, and closed
//! t.write(0xA8, 0x1, 0x0001)?; // starts a function reset
//! assert_eq!(t.read(0x2C, 0x3), Ok(0xFFFFFFFF)); // busy: every byte reads FF
//! t.end_signal(); // ends it
//! t.write(0x2C, 0x3, 0xFFFF)?; // accepted, and changes nothing
//! assert_eq!(t.read(0x2C, 0x3), Ok(0xFFFF1234)); // lanes 2 and 3 aren't enabled
//! # Ok::<(), twin::Refusal>(())
//! ```
//!
//! What the library does is proved, for every argument and every record; the
//! methods here only pack and unpack, and are tested. A [`Twin`] is plain
//! data: it may be copied, sent to another thread, and read by several.

use std::error::Error;
use std::fmt;
use std::mem::{align_of, size_of};

/// The library's functions as they are exported.
///
/// A 64-bit result has the refusal's number in bits 63:48, 0 where it is
/// accepted, and the value in bits 47:0.
pub mod raw {
    use crate::Twin;

    extern "C" {
        /// A platform reset; also what makes any memory the fresh state.
        pub fn twin_platform_reset(s: *mut Twin);
        /// A guest write; the refusal's number.
        pub fn twin_write(s: *mut Twin, offset: u32, lanes: u32, value: u32) -> u32;
        /// The same write, over a copy of the record.
        pub fn twin_write_by_value(s: *mut Twin, offset: u32, lanes: u32, value: u32) -> u32;
        /// A guest read, of ones in the lanes that aren't enabled.
        pub fn twin_read(s: *const Twin, offset: u32, lanes: u32) -> u64;
        /// The operation of number `op`; refusal 9 for any other number, and
        /// for an argument above its greatest value.
        pub fn twin_do(s: *mut Twin, op: u32, a: u32, b: u32, c: u32) -> u64;
        /// A size probe: the kind in bits 47:32, the exponent in bits 31:0.
        pub fn twin_probe(low: u32, high: u32) -> u64;
        /// A capability walk: bit 40 set where the item is found, its offset
        /// in bits 39:32, the count in bits 31:0.
        pub fn twin_walk(bytes: *const u8, length: usize, wanted: u8) -> u64;
    }
}

/// The operations of `twin_do` that have no function of their own.
const HOST_UPDATE: u32 = 3;
const PORT_WRITE: u32 = 4;
const PORT_READ: u32 = 5;
const CLAIM_MEMORY: u32 = 6;
const CLAIM_PORT: u32 = 7;
const WALK: u32 = 9;
const END_SIGNAL: u32 = 10;
const WINDOW_WRITE: u32 = 11;
const WINDOW_READ: u32 = 12;
const COMPLETE: u32 = 13;
const FAULT: u32 = 14;
const ADD_CYCLES: u32 = 15;
const MIRROR_UPDATE: u32 = 16;

/// The registers in GTTMMADR's window by their offsets, as
/// [`Claim::Translation`] gives them. Any other dword of the window reads 0
/// and ignores writes.
pub mod register {
    /// A fault's word, with valid in bit 0.
    pub const FAULT_REG: u32 = 0x04094;
    /// Requests of resets, in bits 3:0.
    pub const ASSRREQ: u32 = 0x0810C;
    /// A mirror: the low dword of MTOUUD.
    pub const MTOUUD: u32 = 0x108080;
    /// A mirror: the high dword of MTOUUD.
    pub const MTOUUD_HIGH: u32 = 0x108084;
    /// A mirror: MBDSM.
    pub const MBDSM: u32 = 0x1080C0;
    /// The sum of DRAM cycles.
    pub const DRAM_CYCLES: u32 = 0x138078;
}

/// Why an access was refused. A refusal changes nothing.
#[derive(Clone, Copy, Debug, PartialEq, Eq, Hash)]
#[repr(u16)]
pub enum Refusal {
    /// A walk's buffer isn't 256 bytes.
    Length = 1,
    /// Port width isn't 1, 2 or 4.
    Width = 2,
    /// Port access is neither 4 bytes at CF8h nor data, or is data with latch
    /// bit 31 clear.
    NotOurs = 3,
    /// Data access, latch bit 31 set, other bus, device or function.
    OtherFunction = 4,
    /// Direct offset above 255 or not a multiple of 4; host offset above 255.
    Offset = 5,
    /// Lanes above 15.
    Lanes = 6,
    /// Update mask, completion or fault word has a bit outside the host mask.
    NotHost = 7,
    /// Probe: low bits 2:0 are 010 or 110, or no counted bit is 1.
    NoRange = 8,
    /// No operation has the number, or an argument is above its greatest
    /// value. No method here is refused so: their types rule it out.
    Line = 9,
    /// Walk: a pointer leads to 04h to 3Ch.
    Pointer = 10,
    /// Walk: 48 items visited and another pointer pending.
    Endless = 11,
    /// Window offset above 3FFFFFh or not a multiple of 4.
    WindowOffset = 16,
}

impl Refusal {
    /// All of them, in the order of their numbers.
    pub const ALL: [Refusal; 12] = [
        Refusal::Length,
        Refusal::Width,
        Refusal::NotOurs,
        Refusal::OtherFunction,
        Refusal::Offset,
        Refusal::Lanes,
        Refusal::NotHost,
        Refusal::NoRange,
        Refusal::Line,
        Refusal::Pointer,
        Refusal::Endless,
        Refusal::WindowOffset,
    ];

    /// The number in the paper's table.
    pub fn number(self) -> u16 {
        self as u16
    }

    /// The refusal of that number, if it is one.
    pub fn of(number: u16) -> Option<Refusal> {
        Refusal::ALL.into_iter().find(|r| r.number() == number)
    }
}

impl fmt::Display for Refusal {
    fn fmt(&self, f: &mut fmt::Formatter<'_>) -> fmt::Result {
        let name = match self {
            Refusal::Length => "LENGTH",
            Refusal::Width => "WIDTH",
            Refusal::NotOurs => "NOT OURS",
            Refusal::OtherFunction => "OTHER FUNCTION",
            Refusal::Offset => "OFFSET",
            Refusal::Lanes => "LANES",
            Refusal::NotHost => "NOT HOST",
            Refusal::NoRange => "NO RANGE",
            Refusal::Line => "LINE",
            Refusal::Pointer => "POINTER",
            Refusal::Endless => "ENDLESS",
            Refusal::WindowOffset => "WINDOW OFFSET",
        };
        write!(f, "refusal {}, {name}", self.number())
    }
}

impl Error for Refusal {}

/// The window that claims an address, with the offset inside.
#[derive(Clone, Copy, Debug, PartialEq, Eq, Hash)]
pub enum Claim {
    /// GTTMMADR's window.
    Translation(u32),
    /// GMADR's window.
    Aperture(u32),
    /// IOBAR's window.
    Io(u32),
}

/// The kind of range that a size probe tells.
#[derive(Clone, Copy, Debug, PartialEq, Eq, Hash)]
pub enum Kind {
    /// I/O ports.
    Io,
    /// 32-bit memory.
    Memory32,
    /// 64-bit memory.
    Memory64,
}

/// A range of 2 to the `exponent` bytes.
#[derive(Clone, Copy, Debug, PartialEq, Eq, Hash)]
pub struct Range {
    /// Its kind.
    pub kind: Kind,
    /// Its size is 2 to this.
    pub exponent: u32,
}

/// How a walk ended.
#[derive(Clone, Copy, Debug, PartialEq, Eq, Hash)]
pub struct Walk {
    /// Where the wanted item is, `None` where it is absent, or refusal 1, 10
    /// or 11.
    pub found: Result<Option<u8>, Refusal>,
    /// The number of items visited, the found one included.
    pub count: u32,
}

/// Which write-once fields are closed: 0 open, any other number closed.
#[repr(C)]
#[derive(Clone, Copy, Debug, PartialEq, Eq, Hash)]
pub struct Closed {
    /// SVID2.
    pub svid2: u8,
    /// SID2.
    pub sid2: u8,
    /// SWSCI bit 15.
    pub swsci15: u8,
}

/// What the registers in GTTMMADR's window hold, in ascending order of their
/// offsets; see [`register`]. Any numbers are a state: a guest reads what is
/// held, but ASSRREQ's bits 31:16 as 0.
#[repr(C)]
#[derive(Clone, Copy, Debug, Default, PartialEq, Eq, Hash)]
pub struct Registers {
    /// FAULT_REG.
    pub fault: u32,
    /// ASSRREQ.
    pub assrreq: u32,
    /// MTOUUD's low dword.
    pub mtouud: u32,
    /// MTOUUD's high dword.
    pub mtouud_high: u32,
    /// MBDSM.
    pub mbdsm: u32,
    /// The sum of DRAM cycles.
    pub cycles: u32,
}

/// The whole state of the function. Every pattern of bytes is a state.
///
/// A write of 1 to AFCTL bit 0 starts a function reset, and
/// [`Twin::end_signal`] or a platform reset ends it. Between the two the
/// function is busy: guest reads give ones, guest writes are accepted and
/// dropped, both through the port pair and in the window too, and nothing is
/// claimed. All that the host does and the port latch work, and refusals are
/// the same.
#[repr(C)]
#[derive(Clone, Copy, Debug, PartialEq, Eq, Hash)]
pub struct Twin {
    /// The 256 configuration bytes. Byte 34 is not what a guest reads there:
    /// CAPPOINT is computed at each read; see [`Twin::image`].
    pub bytes: [u8; 256],
    /// The port latch.
    pub latch: u32,
    /// Which write-once fields are closed.
    pub closed: Closed,
    /// Whether a function reset runs: 0 where none does, any other number
    /// where one does; see [`Twin::is_busy`]. In a record that was stored by a
    /// program without a busy byte it is undefined: set it to 0.
    pub busy: u8,
    /// The window's registers. A function reset leaves them, start and end; a
    /// platform reset makes them 0. A record that was stored by a program
    /// without a window is 24 bytes shorter: set them to 0.
    pub window: Registers,
}

// Where each field stands is tested (tests/paper.rs).
const _: () = assert!(size_of::<Twin>() == 288 && align_of::<Twin>() == 4);

impl Default for Twin {
    fn default() -> Twin {
        Twin::fresh()
    }
}

impl Twin {
    /// The fresh state: defaults, fields open, latch 0, not busy, the window 0.
    pub fn fresh() -> Twin {
        let mut t = Twin {
            bytes: [0; 256],
            latch: 0,
            closed: Closed {
                svid2: 0,
                sid2: 0,
                swsci15: 0,
            },
            busy: 0,
            window: Registers::default(),
        };
        t.platform_reset();
        t
    }

    /// A platform reset: returns everything to the fresh state.
    pub fn platform_reset(&mut self) {
        // SAFETY: the record is whole, aligned, and lent to this call alone.
        unsafe { raw::twin_platform_reset(self) }
    }

    /// A guest write of the lanes' bytes at `offset`; refusals 5 and 6.
    /// Lanes is 0 to 15, bit i for byte offset + i. Writing 1 to AFCTL bit 0
    /// starts a function reset; until its end the function is busy, and a
    /// write is accepted and dropped.
    ///
    /// ```
    /// # use twin::{Refusal, Twin};
    /// let mut t = Twin::fresh();
    /// assert_eq!(t.write(0x04, 0xF, 0xFFFFFFFF), Ok(()));
    /// assert_eq!(t.read(0x04, 0xF), Ok(0x00900407));
    /// assert_eq!(t.write(0x05, 0xF, 0), Err(Refusal::Offset));
    /// ```
    pub fn write(&mut self, offset: u32, lanes: u32, value: u32) -> Result<(), Refusal> {
        // SAFETY: as above.
        accepted(unsafe { raw::twin_write(self, offset, lanes, value) }.into())
    }

    /// A guest read: each enabled byte in its place, FF while busy, and FF in
    /// the lanes that aren't enabled; refusals 5 and 6. A caller that wants a
    /// word or a byte masks or casts.
    ///
    /// ```
    /// # use twin::{Refusal, Twin};
    /// let t = Twin::fresh();
    /// assert_eq!(t.read(0x00, 0xF), Ok(0x01528086));
    /// assert_eq!(t.read(0x00, 0x3), Ok(0xFFFF8086));
    /// assert_eq!(t.read(0x00, 0x3)? as u16, 0x8086);
    /// assert_eq!(t.read(0x00, 0x0), Ok(0xFFFFFFFF));
    /// assert_eq!(t.read(0x00, 0x10), Err(Refusal::Lanes));
    /// # Ok::<(), Refusal>(())
    /// ```
    pub fn read(&self, offset: u32, lanes: u32) -> Result<u32, Refusal> {
        // SAFETY: the record is whole, aligned, and only read.
        value(unsafe { raw::twin_read(self, offset, lanes) })
    }

    /// The host's end signal: it ends the function reset that runs, and gives
    /// the F bits and AFCTL bit 0 their defaults. Where none runs it changes
    /// nothing.
    ///
    /// ```
    /// # use twin::Twin;
    /// let mut t = Twin::fresh();
    /// t.write(0x04, 0x1, 0x07)?;
    /// t.write(0xA8, 0x1, 0x01)?;
    /// assert!(t.is_busy());
    /// assert_eq!(t.read(0xA8, 0x1), Ok(0xFFFFFFFF));
    /// t.end_signal();
    /// assert!(!t.is_busy());
    /// assert_eq!(t.read(0xA8, 0x1), Ok(0xFFFFFF00));
    /// assert_eq!(t.read(0x04, 0x1), Ok(0xFFFFFF00));
    /// # Ok::<(), twin::Refusal>(())
    /// ```
    pub fn end_signal(&mut self) {
        self.perform(END_SIGNAL, 0, 0, 0);
    }

    /// Whether a function reset runs. The host knows it; a guest reads ones.
    pub fn is_busy(&self) -> bool {
        self.busy != 0
    }

    /// A host update of the masked bits of one byte; refusals 5 and 7.
    ///
    /// ```
    /// # use twin::{Refusal, Twin};
    /// let mut t = Twin::fresh();
    /// assert_eq!(t.host_update(0x08, 0xFF, 0x09), Ok(())); // RID2
    /// assert_eq!(t.read(0x08, 0x1), Ok(0xFFFFFF09));
    /// assert_eq!(t.host_update(0x00, 0x01, 0x01), Err(Refusal::NotHost));
    /// ```
    pub fn host_update(&mut self, offset: u32, mask: u8, value: u8) -> Result<(), Refusal> {
        self.done(HOST_UPDATE, offset, mask.into(), value.into())
    }

    /// A write of `width` bytes to a port; refusals 2, 3 and 4. 4 bytes at
    /// CF8h store the latch, data goes to the dword that it names, and is
    /// dropped while busy.
    pub fn port_write(&mut self, port: u16, width: u32, value: u32) -> Result<(), Refusal> {
        self.done(PORT_WRITE, port.into(), width, value)
    }

    /// A read of `width` bytes from a port, 0 above the width, data of ones
    /// while busy; refusals 2, 3 and 4.
    ///
    /// ```
    /// # use twin::{Refusal, Twin};
    /// let mut t = Twin::fresh();
    /// t.port_write(0xCF8, 4, 0x80001000)?;
    /// assert_eq!(t.port_read(0xCFE, 2), Ok(0x0152));
    /// assert_eq!(t.port_read(0xCFF, 2), Err(Refusal::NotOurs));
    /// # Ok::<(), Refusal>(())
    /// ```
    pub fn port_read(&self, port: u16, width: u32) -> Result<u32, Refusal> {
        value(self.look(PORT_READ, port.into(), width))
    }

    /// Which window claims a memory address; none while busy.
    ///
    /// ```
    /// # use twin::{Claim, Twin};
    /// let mut t = Twin::fresh();
    /// t.write(0x04, 0x1, 0x02)?; // memory
    /// t.write(0x18, 0xF, 0xE0000000)?;
    /// assert_eq!(t.claim_memory(0xE0001000), Some(Claim::Aperture(0x1000)));
    /// assert_eq!(t.claim_memory(0xF0000000), None);
    /// # Ok::<(), twin::Refusal>(())
    /// ```
    pub fn claim_memory(&self, address: u64) -> Option<Claim> {
        claim(self.look(CLAIM_MEMORY, address as u32, (address >> 32) as u32))
    }

    /// Which window claims an I/O port; none while busy.
    pub fn claim_port(&self, port: u16) -> Option<Claim> {
        claim(self.look(CLAIM_PORT, port.into(), 0))
    }

    /// The 256 bytes as a guest reads them, FF all of them while busy.
    pub fn image(&self) -> [u8; 256] {
        let mut image = [0; 256];
        for (offset, bytes) in (0..).step_by(4).zip(image.chunks_exact_mut(4)) {
            let dword = self.read(offset, 0xF).expect("an aligned offset, lanes F");
            bytes.copy_from_slice(&dword.to_le_bytes());
        }
        image
    }

    /// A capability walk over the function's own bytes as a guest reads them,
    /// FF all of them while busy.
    ///
    /// ```
    /// # use twin::{Twin, Walk};
    /// let t = Twin::fresh();
    /// assert_eq!(t.walk(0x13), Walk { found: Ok(Some(0xA4)), count: 3 });
    /// assert_eq!(t.walk(0x10), Walk { found: Ok(None), count: 3 });
    /// ```
    pub fn walk(&self, wanted: u8) -> Walk {
        ended(self.look(WALK, wanted.into(), 0))
    }

    /// A guest write of the lanes' bytes at an offset inside GTTMMADR's window,
    /// dropped while busy; refusals 16 and 6. In ASSRREQ each of bits 3:0 is
    /// set where the value has it and the bit 16 higher, and lanes 0 and 2 are
    /// both enabled. FAULT_REG becomes 0 where lane 0 is enabled and the
    /// value's bit 0 is 0. A guest changes nothing else in the window.
    ///
    /// ```
    /// # use twin::{register::ASSRREQ, Claim, Refusal, Twin};
    /// let mut t = Twin::fresh();
    /// t.write(0x10, 0xF, 0xF7800000)?; // GTTMMADR
    /// t.write(0x04, 0x1, 0x02)?; // memory
    /// assert_eq!(t.claim_memory(0xF780810C), Some(Claim::Translation(ASSRREQ)));
    /// t.window_write(ASSRREQ, 0xF, 0x00020002)?; // a request, and its mask bit
    /// assert_eq!(t.window_read(ASSRREQ, 0xF), Ok(0x00000002));
    /// t.complete(0x2)?; // the host's part
    /// assert_eq!(t.window_read(ASSRREQ, 0xF), Ok(0x00000000));
    /// assert_eq!(t.window_write(0x0810D, 0xF, 0), Err(Refusal::WindowOffset));
    /// # Ok::<(), Refusal>(())
    /// ```
    pub fn window_write(&mut self, offset: u32, lanes: u32, value: u32) -> Result<(), Refusal> {
        self.done(WINDOW_WRITE, offset, lanes, value)
    }

    /// A guest read at an offset inside GTTMMADR's window, of ones while busy
    /// and in the lanes that aren't enabled; refusals 16 and 6.
    pub fn window_read(&self, offset: u32, lanes: u32) -> Result<u32, Refusal> {
        value(self.look(WINDOW_READ, offset, lanes))
    }

    /// The host completes requests: ASSRREQ's masked bits become 0; refusal 7
    /// for a mask with a bit outside Fh.
    pub fn complete(&mut self, mask: u32) -> Result<(), Refusal> {
        self.done(COMPLETE, mask, 0, 0)
    }

    /// The host gives a fault: FAULT_REG holds its word with bit 0, valid,
    /// set; but where valid is set already the fault is lost, though accepted.
    /// Refusal 7 for a word with a bit outside 77FEh.
    ///
    /// ```
    /// # use twin::{register::FAULT_REG, Twin};
    /// let mut t = Twin::fresh();
    /// t.fault(0x1152)?;
    /// t.fault(0x4008)?; // lost
    /// assert_eq!(t.window_read(FAULT_REG, 0xF), Ok(0x00001153));
    /// t.window_write(FAULT_REG, 0x1, 0x00)?; // clears all of it
    /// assert_eq!(t.window_read(FAULT_REG, 0xF), Ok(0x00000000));
    /// # Ok::<(), twin::Refusal>(())
    /// ```
    pub fn fault(&mut self, word: u32) -> Result<(), Refusal> {
        self.done(FAULT, word, 0, 0)
    }

    /// The host adds to the sum of DRAM cycles, which wraps past 32 bits.
    pub fn add_cycles(&mut self, count: u32) {
        self.perform(ADD_CYCLES, count, 0, 0);
    }

    /// A host update of the masked bits of a mirror; refusal 16, and 7 for a
    /// mask with a bit outside the mirror's: FFF00001h for MTOUUD and MBDSM,
    /// 7Fh for MTOUUD_HIGH, 0 for every other dword of the window.
    ///
    /// ```
    /// # use twin::{register::{ASSRREQ, MBDSM}, Refusal, Twin};
    /// let mut t = Twin::fresh();
    /// assert_eq!(t.mirror_update(MBDSM, 0xFFF00001, 0x9AB00001), Ok(()));
    /// t.window_write(MBDSM, 0xF, 0)?; // accepted, and changes nothing
    /// assert_eq!(t.window_read(MBDSM, 0xF), Ok(0x9AB00001));
    /// assert_eq!(t.mirror_update(ASSRREQ, 0x1, 0x1), Err(Refusal::NotHost));
    /// # Ok::<(), Refusal>(())
    /// ```
    pub fn mirror_update(&mut self, offset: u32, mask: u32, value: u32) -> Result<(), Refusal> {
        self.done(MIRROR_UPDATE, offset, mask, value)
    }

    /// The door.
    fn perform(&mut self, op: u32, a: u32, b: u32, c: u32) -> u64 {
        // SAFETY: the record is whole, aligned, and lent to this call alone.
        unsafe { raw::twin_do(self, op, a, b, c) }
    }

    /// The door for an operation that tells a refusal's number alone.
    fn done(&mut self, op: u32, a: u32, b: u32, c: u32) -> Result<(), Refusal> {
        accepted(self.perform(op, a, b, c) >> 48)
    }

    /// The door for an operation that only looks: over a copy, since the door
    /// stores to its record.
    fn look(&self, op: u32, a: u32, b: u32) -> u64 {
        let mut copy = *self;
        copy.perform(op, a, b, 0)
    }
}

/// The range that the low and high dword tell, read back after ones were
/// written; refusal 8.
///
/// ```
/// # use twin::{probe, Kind, Range};
/// let range = Range { kind: Kind::Memory64, exponent: 28 };
/// assert_eq!(probe(0xF000000C, 0xFFFFFFFF), Ok(range));
/// ```
pub fn probe(low: u32, high: u32) -> Result<Range, Refusal> {
    // SAFETY: takes numbers alone.
    let result = unsafe { raw::twin_probe(low, high) };
    accepted(result >> 48)?;
    let kind = match middle(result) {
        1 => Kind::Io,
        2 => Kind::Memory32,
        3 => Kind::Memory64,
        other => panic!("the library told of a kind {other}"),
    };
    Ok(Range {
        kind,
        exponent: result as u32,
    })
}

/// A capability walk over any bytes; refusals 1, 10 and 11.
pub fn walk(bytes: &[u8], wanted: u8) -> Walk {
    // SAFETY: there are as many bytes as the length says, and they are only read.
    ended(unsafe { raw::twin_walk(bytes.as_ptr(), bytes.len(), wanted) })
}

/// Bits 47:32 of a result.
fn middle(result: u64) -> u16 {
    (result >> 32) as u16
}

fn accepted(number: u64) -> Result<(), Refusal> {
    match number {
        0 => Ok(()),
        number => Err(u16::try_from(number)
            .ok()
            .and_then(Refusal::of)
            .unwrap_or_else(|| panic!("the library told of a refusal {number}"))),
    }
}

fn value(result: u64) -> Result<u32, Refusal> {
    accepted(result >> 48).map(|()| result as u32)
}

fn claim(result: u64) -> Option<Claim> {
    let offset = result as u32;
    match middle(result) {
        0 => None,
        1 => Some(Claim::Translation(offset)),
        2 => Some(Claim::Aperture(offset)),
        3 => Some(Claim::Io(offset)),
        other => panic!("the library told of a window {other}"),
    }
}

fn ended(result: u64) -> Walk {
    let at = (middle(result) & 0x100 != 0).then_some(middle(result) as u8);
    Walk {
        found: accepted(result >> 48).map(|()| at),
        count: result as u32,
    }
}
