//! The twin: a class and a value for each bit, the field flags, the latch,
//! whether a function reset is under way, and the window.

use crate::access::Access;
use crate::map::{self, Class, Field, BITS, BYTES};
use crate::refusal::Refusal;
use crate::walk::{self, Walk};
use crate::window::{self, Window};

const PCICMD2: usize = 0x04;
const GTTMMADR: usize = 0x10;
const GMADR: usize = 0x18;
const IOBAR: usize = 0x20;
const MSAC: usize = 0x62;
const CAPL: usize = 0x7F;
const AFCTL: usize = 0xA8;
const PMCS: usize = 0xD4;

const ADDRESS_PORT: u32 = 0xCF8;
const DATA_PORT: u32 = 0xCFC;
const DATA_END: u32 = 0xD00;

/// The number of bit `place` of the register at byte `at`.
const fn bit_of(at: usize, place: usize) -> usize {
    at * 8 + place
}

/// The bytes of a write-once field.
fn bytes_of(field: Field) -> &'static [usize] {
    match field {
        Field::Svid2 => &[0x2C, 0x2D],
        Field::Sid2 => &[0x2E, 0x2F],
        Field::SwsciBit15 => &[0xE9],
    }
}

/// The aperture's size by MSAC bits 2:1.
#[derive(Clone, Copy, Debug, PartialEq, Eq)]
enum SizeCode {
    /// 00
    Mb128,
    /// 01
    Mb256,
    /// 10, in states of foreign making alone.
    Foreign,
    /// 11
    Mb512,
}

impl SizeCode {
    /// Whether GMADR bit 27 is read-only.
    fn takes_bit_27(self) -> bool {
        matches!(self, SizeCode::Mb256 | SizeCode::Mb512)
    }

    /// Whether GMADR bit 28 is read-only.
    fn takes_bit_28(self) -> bool {
        self == SizeCode::Mb512
    }

    /// The aperture's size is 2 to this.
    fn exponent(self) -> Option<u32> {
        match self {
            SizeCode::Mb128 => Some(27),
            SizeCode::Mb256 => Some(28),
            SizeCode::Foreign => None,
            SizeCode::Mb512 => Some(29),
        }
    }
}

/// Which write-once fields are closed: 0 open, any other number closed. A
/// write that closes an open field leaves 1; another number is of foreign
/// making, and stays.
#[derive(Clone, Copy, Debug, Default, PartialEq, Eq)]
struct Closed {
    svid2: u8,
    sid2: u8,
    swsci_bit_15: u8,
}

impl Closed {
    fn holds(self, field: Field) -> bool {
        match field {
            Field::Svid2 => self.svid2 != 0,
            Field::Sid2 => self.sid2 != 0,
            Field::SwsciBit15 => self.swsci_bit_15 != 0,
        }
    }

    fn close(&mut self, field: Field) {
        if self.holds(field) {
            return;
        }
        match field {
            Field::Svid2 => self.svid2 = 1,
            Field::Sid2 => self.sid2 = 1,
            Field::SwsciBit15 => self.swsci_bit_15 = 1,
        }
    }
}

/// A dword value on its way to an offset.
#[derive(Clone, Copy)]
struct Written {
    offset: usize,
    value: u32,
}

impl Written {
    /// What is written to a bit of that dword.
    fn bit(self, bit: usize) -> bool {
        self.value >> (bit - self.offset * 8) & 1 == 1
    }

    /// What is written to bit `high` and the bit below it, of byte `at`.
    fn pair(self, at: usize, high: usize) -> (bool, bool) {
        (self.bit(bit_of(at, high)), self.bit(bit_of(at, high - 1)))
    }
}

/// Which window claims an address or a port, with the offset inside.
#[derive(Clone, Copy, Debug, PartialEq, Eq)]
pub enum Claim {
    /// GTTMMADR's window.
    Translation(u32),
    /// GMADR's window.
    Aperture(u32),
    /// IOBAR's window.
    Io(u32),
    /// No window.
    None,
}

/// What an accepted port access reaches.
enum Target {
    /// The latch itself.
    Latch,
    /// A dword of the function, from lane `first_lane` on.
    Data { offset: u32, first_lane: u32 },
}

/// The state as a bench lends it: any bytes, any latch, any flags.
#[derive(Clone, Copy, Debug, PartialEq, Eq)]
pub struct Record {
    /// The value of every bit, eight to a byte.
    pub bytes: [u8; BYTES],
    /// The port latch.
    pub latch: u32,
    /// The flags of SVID2, SID2 and SWSCI bit 15.
    pub closed: [u8; 3],
    /// 0 if no function reset is under way, any other number if one is.
    pub busy: u8,
    /// The window's registers by ascending offset: FAULT_REG, ASSRREQ, MTOUUD,
    /// its high dword, MBDSM, and the DRAM cycle sum.
    pub window: [u32; window::REGISTERS],
}

/// The whole state of the function.
#[derive(Clone, Debug, PartialEq, Eq)]
pub struct Twin {
    values: [bool; BITS],
    closed: Closed,
    latch: u32,
    /// 0 not busy, any other number busy. A guest's start leaves 1; another
    /// number is of foreign making.
    busy: u8,
    window: Window,
}

impl Default for Twin {
    fn default() -> Twin {
        Twin::fresh()
    }
}

/// Records.
impl Twin {
    /// The state that a record is.
    pub fn of_record(record: &Record) -> Twin {
        let [svid2, sid2, swsci_bit_15] = record.closed;
        Twin {
            values: std::array::from_fn(|bit| record.bytes[bit / 8] >> (bit % 8) & 1 == 1),
            closed: Closed {
                svid2,
                sid2,
                swsci_bit_15,
            },
            latch: record.latch,
            busy: record.busy,
            window: Window::of_dwords(record.window),
        }
    }

    /// The state as a record.
    pub fn record(&self) -> Record {
        let Closed {
            svid2,
            sid2,
            swsci_bit_15,
        } = self.closed;
        let byte = |at: usize| {
            (0..8)
                .filter(|place| self.values[bit_of(at, *place)])
                .fold(0, |byte, place| byte | 1 << place)
        };
        Record {
            bytes: std::array::from_fn(byte),
            latch: self.latch,
            closed: [svid2, sid2, swsci_bit_15],
            busy: self.busy,
            window: self.window.dwords(),
        }
    }
}

/// Direct access.
impl Twin {
    /// The fresh state: defaults, fields open, latch 0, not busy, window 0.
    pub fn fresh() -> Twin {
        Twin {
            values: *map::paper().defaults(),
            closed: Closed::default(),
            latch: 0,
            busy: 0,
            window: Window::default(),
        }
    }

    /// Whether a function reset is under way.
    pub fn is_busy(&self) -> bool {
        self.busy != 0
    }

    /// A guest read of a dword's enabled bytes, the others FF.
    pub fn guest_read(&self, offset: u32, lanes: u32) -> Result<u32, Refusal> {
        let access = Access::checked(offset, lanes)?;
        Ok(access.read_value(|at| self.byte(at)))
    }

    /// A guest write of a dword's enabled bytes; it is dropped while busy.
    pub fn guest_write(&mut self, offset: u32, lanes: u32, value: u32) -> Result<(), Refusal> {
        let access = Access::checked(offset, lanes)?;
        if self.is_busy() {
            return Ok(());
        }
        let written = Written {
            offset: access.offset,
            value,
        };
        self.store(access, written);
        self.close_touched_fields(access);
        if access.enables(MSAC) {
            self.clear_taken_aperture_bits();
        }
        if access.enables(AFCTL) && written.bit(bit_of(AFCTL, 0)) {
            self.busy = 1;
        }
        Ok(())
    }

    /// A host update of the masked bits of one byte.
    pub fn host_update(&mut self, offset: u32, mask: u8, value: u8) -> Result<(), Refusal> {
        if offset > 255 {
            return Err(Refusal::Offset);
        }
        let at = offset as usize;
        if !map::paper().host_may_change(at, mask) {
            return Err(Refusal::NotHost);
        }
        for place in (0..8).filter(|place| mask >> place & 1 == 1) {
            self.values[bit_of(at, place)] = value >> place & 1 == 1;
        }
        Ok(())
    }

    /// The host's signal that a function reset is over: the F bits then hold
    /// their defaults and AFCTL 0; all else stays. It does nothing if not busy.
    pub fn end_signal(&mut self) {
        if self.is_busy() {
            self.return_f_bits();
            self.values[bit_of(AFCTL, 0)] = false;
            self.busy = 0;
        }
    }

    /// A platform reset: the fresh state.
    pub fn platform_reset(&mut self) {
        *self = Twin::fresh();
    }

    /// The function's 256 bytes as a guest reads them.
    pub fn bytes(&self) -> [u8; BYTES] {
        std::array::from_fn(|at| self.byte(at))
    }

    /// One byte as a guest reads it.
    fn byte(&self, at: usize) -> u8 {
        (0..8)
            .filter(|place| self.reads(bit_of(at, *place)))
            .fold(0, |byte, place| byte | 1 << place)
    }

    /// What a guest reads in one bit: 1 while busy.
    fn reads(&self, bit: usize) -> bool {
        self.is_busy() || self.shows(bit)
    }

    /// What a guest reads in one bit when no function reset is under way.
    fn shows(&self, bit: usize) -> bool {
        match map::paper().class(bit) {
            Class::Computed => self.cappoint() >> (bit % 8) & 1 == 1,
            _ => self.values[bit],
        }
    }

    /// CAPPOINT, from CAPL bit 0.
    fn cappoint(&self) -> u8 {
        if self.values[bit_of(CAPL, 0)] {
            0xD0
        } else {
            0x90
        }
    }

    /// The register of so many bytes as it stands, busy or not.
    fn number(&self, at: usize, bytes: usize) -> u64 {
        (0..bytes * 8)
            .filter(|place| self.shows(bit_of(at, *place)))
            .fold(0, |value, place| value | 1 << place)
    }

    /// Stores the enabled bits, each by its class and the state before the write.
    fn store(&mut self, access: Access, written: Written) {
        let before = self.clone();
        for place in access.enabled_places() {
            let bit = bit_of(access.offset, place);
            self.values[bit] = before.after_write(bit, written);
        }
    }

    /// The value of an enabled bit after a write in this state.
    fn after_write(&self, bit: usize, written: Written) -> bool {
        let (old, new) = (self.values[bit], written.bit(bit));
        let stored = match map::paper().class(bit) {
            Class::ReadOnly | Class::Host | Class::Computed | Class::StartsReset => false,
            Class::GuestKept | Class::GuestReset => true,
            Class::Aperture27 => !self.size_code().takes_bit_27(),
            Class::Aperture28 => !self.size_code().takes_bit_28(),
            Class::WriteOnce(field) => !self.closed.holds(field),
            Class::SizeCode => written.pair(MSAC, 2) != (true, false),
            Class::PowerState => matches!(written.pair(PMCS, 1), (false, false) | (true, true)),
        };
        if stored {
            new
        } else {
            old
        }
    }

    /// Closes each write-once field of which a byte is enabled.
    fn close_touched_fields(&mut self, access: Access) {
        for field in [Field::Svid2, Field::Sid2, Field::SwsciBit15] {
            if bytes_of(field).iter().any(|at| access.enables(*at)) {
                self.closed.close(field);
            }
        }
    }

    /// Clears the aperture bits that the size code makes read-only.
    fn clear_taken_aperture_bits(&mut self) {
        if self.size_code().takes_bit_27() {
            self.values[bit_of(GMADR, 27)] = false;
        }
        if self.size_code().takes_bit_28() {
            self.values[bit_of(GMADR, 28)] = false;
        }
    }

    /// Returns the F bits to their defaults.
    fn return_f_bits(&mut self) {
        let map = map::paper();
        for bit in (0..BITS).filter(|bit| is_reset(map.class(*bit))) {
            self.values[bit] = map.default(bit);
        }
    }

    /// MSAC bits 2:1.
    fn size_code(&self) -> SizeCode {
        match (self.values[bit_of(MSAC, 2)], self.values[bit_of(MSAC, 1)]) {
            (false, false) => SizeCode::Mb128,
            (false, true) => SizeCode::Mb256,
            (true, false) => SizeCode::Foreign,
            (true, true) => SizeCode::Mb512,
        }
    }
}

/// Whether a function reset returns bits of this class to default.
fn is_reset(class: Class) -> bool {
    match class {
        Class::GuestReset | Class::Aperture27 | Class::Aperture28 | Class::PowerState => true,
        Class::ReadOnly
        | Class::Host
        | Class::GuestKept
        | Class::WriteOnce(_)
        | Class::SizeCode
        | Class::Computed
        | Class::StartsReset => false,
    }
}

/// The port pair.
impl Twin {
    /// A write of `width` bytes to a port.
    pub fn port_write(&mut self, port: u16, width: u32, value: u32) -> Result<(), Refusal> {
        match self.target(port, width)? {
            Target::Latch => {
                self.latch = latched(value);
                Ok(())
            }
            Target::Data { offset, first_lane } => {
                let placed = value << (8 * first_lane);
                self.guest_write(offset, lanes_of(width, first_lane), placed)
            }
        }
    }

    /// A read of `width` bytes from a port, 0 above them. It isn't built on a
    /// direct read: a port caller sees nothing of the lanes that aren't enabled.
    pub fn port_read(&self, port: u16, width: u32) -> Result<u32, Refusal> {
        match self.target(port, width)? {
            Target::Latch => Ok(self.latch),
            Target::Data { offset, first_lane } => {
                let byte = |place| u32::from(self.byte((offset + first_lane + place) as usize));
                Ok((0..width).fold(0, |value, place| value | byte(place) << (8 * place)))
            }
        }
    }

    /// Where a port access goes, or why it is refused: 2, then 3, then 4.
    fn target(&self, port: u16, width: u32) -> Result<Target, Refusal> {
        let port = u32::from(port);
        if !matches!(width, 1 | 2 | 4) {
            return Err(Refusal::Width);
        }
        if port == ADDRESS_PORT && width == 4 {
            return Ok(Target::Latch);
        }
        let is_data = DATA_PORT <= port && port + width <= DATA_END;
        if !is_data || !self.latch_enables() {
            return Err(Refusal::NotOurs);
        }
        if !self.latch_names_the_function() {
            return Err(Refusal::OtherFunction);
        }
        Ok(Target::Data {
            offset: self.latch_field(7, 2) * 4,
            first_lane: port - DATA_PORT,
        })
    }

    /// Bits `high` down to `low` of the latch.
    fn latch_field(&self, high: u32, low: u32) -> u32 {
        (self.latch >> low) % (1 << (high - low + 1))
    }

    fn latch_enables(&self) -> bool {
        self.latch_field(31, 31) == 1
    }

    /// Bus 0, device 2, function 0.
    fn latch_names_the_function(&self) -> bool {
        self.latch_field(23, 16) == 0
            && self.latch_field(15, 11) == 2
            && self.latch_field(10, 8) == 0
    }
}

/// A value as the latch stores it: bits 30:24 and 1:0 zero.
fn latched(value: u32) -> u32 {
    (0..32)
        .filter(|place| !matches!(place, 24..=30 | 0..=1))
        .fold(0, |latch, place| latch | value & 1 << place)
}

/// The lanes of so many bytes from `first_lane` on.
fn lanes_of(width: u32, first_lane: u32) -> u32 {
    (first_lane..first_lane + width).fold(0, |lanes, lane| lanes | 1 << lane)
}

/// The window.
impl Twin {
    /// A guest read of a window dword's enabled bytes, the others FF; ones
    /// while busy.
    pub fn window_read(&self, offset: u32, lanes: u32) -> Result<u32, Refusal> {
        let access = Access::in_window(offset, lanes)?;
        if self.is_busy() {
            return Ok(u32::MAX);
        }
        Ok(access.read_value(|at| self.window.byte(at)))
    }

    /// A guest write of a window dword's enabled bytes; it is dropped while busy.
    pub fn window_write(&mut self, offset: u32, lanes: u32, value: u32) -> Result<(), Refusal> {
        let access = Access::in_window(offset, lanes)?;
        if !self.is_busy() {
            self.window.guest_write(access, value);
        }
        Ok(())
    }

    /// The host completes the masked requests, busy or not.
    pub fn complete(&mut self, mask: u32) -> Result<(), Refusal> {
        self.window.complete(mask)
    }

    /// The host gives a fault word, busy or not.
    pub fn fault(&mut self, word: u32) -> Result<(), Refusal> {
        self.window.fault(word)
    }

    /// The host adds to the DRAM cycle sum, busy or not.
    pub fn add_cycles(&mut self, count: u32) {
        self.window.add_cycles(count);
    }

    /// A device update of the masked bits of a mirror, busy or not.
    pub fn mirror_update(&mut self, offset: u32, mask: u32, value: u32) -> Result<(), Refusal> {
        self.window.mirror_update(offset, mask, value)
    }
}

/// Claims and the walk.
impl Twin {
    /// Which window claims a memory address.
    pub fn claim_memory(&self, address: u64) -> Claim {
        if !self.shows(bit_of(PCICMD2, 1)) || self.claims_nothing() {
            return Claim::None;
        }
        if let Some(inside) = inside(address, self.memory_base(GTTMMADR), 22) {
            return Claim::Translation(inside);
        }
        self.size_code()
            .exponent()
            .and_then(|exponent| inside(address, self.memory_base(GMADR), exponent))
            .map_or(Claim::None, Claim::Aperture)
    }

    /// Which window claims an I/O port.
    pub fn claim_port(&self, port: u16) -> Claim {
        if !self.shows(bit_of(PCICMD2, 0)) || self.claims_nothing() {
            return Claim::None;
        }
        inside(u64::from(port), self.io_base(), 6).map_or(Claim::None, Claim::Io)
    }

    /// The capability walk over the bytes as a guest reads them.
    pub fn walk(&self, wanted: u8) -> Result<Walk, Refusal> {
        walk::walk(&self.bytes(), wanted)
    }

    /// GTTMMADR's base.
    pub fn translation_base(&self) -> u64 {
        self.memory_base(GTTMMADR)
    }

    /// GMADR's base.
    pub fn aperture_base(&self) -> u64 {
        self.memory_base(GMADR)
    }

    /// IOBAR's base.
    pub fn io_base(&self) -> u64 {
        without_low_bits(self.number(IOBAR, 4), 2)
    }

    /// A memory base: its register with bits 3:0 taken as 0.
    fn memory_base(&self, at: usize) -> u64 {
        without_low_bits(self.number(at, 8), 4)
    }

    /// Busy, or power state 11.
    fn claims_nothing(&self) -> bool {
        self.is_busy() || self.number(PMCS, 2) % 4 == 3
    }
}

/// A number with so many low bits taken as 0.
fn without_low_bits(number: u64, bits: u32) -> u64 {
    number >> bits << bits
}

/// The offset of an address in a window of 2 to the `exponent` bytes, if it
/// equals the base in all bits from the size upward.
fn inside(address: u64, base: u64, exponent: u32) -> Option<u32> {
    let belongs = address >> exponent == base >> exponent;
    belongs.then(|| (address % (1 << exponent)) as u32)
}
