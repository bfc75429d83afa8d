//! The register map: a class and a default for each of the 2,048 bits.
//!
//! [`paper`] repeats the paper's table row by row, in its order and with its
//! masks. A bit that no row gives a class stays read-only.

/// Configuration bytes of the function.
pub const BYTES: usize = 256;
/// Configuration bits of the function.
pub const BITS: usize = BYTES * 8;

/// A write-once field; it opens and closes as a whole.
#[derive(Clone, Copy, Debug, PartialEq, Eq)]
pub enum Field {
    /// SVID2, bytes 2C and 2D.
    Svid2,
    /// SID2, bytes 2E and 2F.
    Sid2,
    /// SWSCI bit 15, which lies in byte E9.
    SwsciBit15,
}

/// How a bit behaves.
#[derive(Clone, Copy, Debug, PartialEq, Eq)]
pub enum Class {
    /// Keeps its default.
    ReadOnly,
    /// Changed by a host update alone.
    Host,
    /// Stored by a guest write; a function reset leaves it.
    GuestKept,
    /// Stored by a guest write; a function reset returns it to default (F).
    GuestReset,
    /// GMADR bit 27: stored with size code 00 (and the foreign 10), F.
    Aperture27,
    /// GMADR bit 28: stored unless the size code is 11, F.
    Aperture28,
    /// Stored while its field is open.
    WriteOnce(Field),
    /// MSAC bits 2:1: stored unless 10 is written; a function reset leaves them.
    SizeCode,
    /// PMCS bits 1:0: stored when 00 or 11 is written, F.
    PowerState,
    /// CAPPOINT: made from CAPL at each read.
    Computed,
    /// AFCTL bit 0: writing 1 starts a function reset.
    StartsReset,
}

/// Class and default of every bit. Bit `n` is bit `n % 8` of byte `n / 8`.
pub struct Map {
    class: [Class; BITS],
    default: [bool; BITS],
    listed: [bool; BYTES],
}

impl Map {
    /// The class of a bit.
    pub fn class(&self, bit: usize) -> Class {
        self.class[bit]
    }

    /// The default of a bit.
    pub fn default(&self, bit: usize) -> bool {
        self.default[bit]
    }

    /// Every bit's default.
    pub fn defaults(&self) -> &[bool; BITS] {
        &self.default
    }

    /// Whether a host update may change every bit of `mask` in byte `at`.
    pub fn host_may_change(&self, at: usize, mask: u8) -> bool {
        (0..8)
            .filter(|place| mask >> place & 1 == 1)
            .all(|place| self.class[at * 8 + place] == Class::Host)
    }

    /// A map that lists nothing: all bits read-only, 0.
    fn unlisted() -> Map {
        Map {
            class: [Class::ReadOnly; BITS],
            default: [false; BITS],
            listed: [false; BYTES],
        }
    }

    /// Lists a register with its default; its bits are read-only at first.
    fn register(&mut self, at: usize, bytes: usize, default: u64) -> Register<'_> {
        for byte in at..at + bytes {
            assert!(!self.listed[byte], "byte {byte:02X} is listed twice");
            self.listed[byte] = true;
        }
        for place in 0..bytes * 8 {
            self.default[at * 8 + place] = default >> place & 1 == 1;
        }
        Register {
            map: self,
            at,
            bytes,
        }
    }
}

/// A register that is being listed.
struct Register<'a> {
    map: &'a mut Map,
    at: usize,
    bytes: usize,
}

impl Register<'_> {
    /// Gives the bits of `mask` their class.
    fn mask(mut self, mask: u64, class: Class) -> Self {
        for place in (0..64).filter(|place| mask >> place & 1 == 1) {
            self.set(place, class);
        }
        self
    }

    /// Gives the bits from `high` down to `low` their class.
    fn bits(mut self, high: usize, low: usize, class: Class) -> Self {
        for place in low..=high {
            self.set(place, class);
        }
        self
    }

    /// Gives all bits of the register their class.
    fn all(self, class: Class) -> Self {
        let high = self.bytes * 8 - 1;
        self.bits(high, 0, class)
    }

    /// Gives one bit its class, which it may not have yet.
    fn set(&mut self, place: usize, class: Class) {
        assert!(
            place < self.bytes * 8,
            "bit {place} is outside its register"
        );
        let bit = self.at * 8 + place;
        assert!(
            self.map.class[bit] == Class::ReadOnly,
            "bit {bit} has two classes"
        );
        self.map.class[bit] = class;
    }
}

/// The paper's map.
pub fn paper() -> &'static Map {
    thread_local!(static MAP: &'static Map = Box::leak(Box::new(table())));
    MAP.with(|map| *map)
}

/// The paper's table.
fn table() -> Map {
    use Class::*;
    let mut map = Map::unlisted();
    map.register(0x00, 2, 0x8086); // VID2
    map.register(0x02, 2, 0x0152).mask(0xFFFF, Host); // DID2
    map.register(0x04, 2, 0x0000).mask(0x0407, GuestReset); // PCICMD2
    map.register(0x06, 2, 0x0090).mask(0x0008, Host); // PCISTS2
    map.register(0x08, 1, 0x00).mask(0xFF, Host); // RID2
    map.register(0x09, 3, 0x030000).mask(0xFFFF00, Host); // CC
    map.register(0x10, 8, 0x4).bits(63, 22, GuestReset); // GTTMMADR
    map.register(0x18, 8, 0xC) // GMADR
        .bits(63, 29, GuestReset)
        .bits(28, 28, Aperture28)
        .bits(27, 27, Aperture27);
    map.register(0x20, 4, 0x1).mask(0x0000FFC0, GuestReset); // IOBAR
    map.register(0x2C, 2, 0x0).all(WriteOnce(Field::Svid2)); // SVID2
    map.register(0x2E, 2, 0x0).all(WriteOnce(Field::Sid2)); // SID2
    map.register(0x34, 1, 0x90).all(Computed); // CAPPOINT
    map.register(0x3C, 1, 0x00).mask(0xFF, GuestKept); // INTRLINE
    map.register(0x3D, 1, 0x01); // INTRPIN
    map.register(0x40, 2, 0x0009); // CAPID0
    map.register(0x42, 2, 0x010C); // CAPCTRL0
    map.register(0x44, 4, 0x0).all(Host); // CAPID0_A
    map.register(0x48, 4, 0x0).all(Host); // CAPID0_B
    map.register(0x50, 2, 0x0028).all(Host); // MGGC0
    map.register(0x54, 4, 0x0000209F).all(Host); // DEVEN0
    map.register(0x5C, 4, 0x0).all(Host); // BDSM
    map.register(0x60, 2, 0x0).mask(0xFFFF, GuestReset); // HSRW
    map.register(0x62, 1, 0x02) // MSAC, guest F6
        .bits(7, 4, GuestKept)
        .bits(2, 1, SizeCode);
    map.register(0x63, 1, 0x0).mask(0x01, Host); // VTD_STATUS
    map.register(0x7F, 1, 0x0).mask(0x01, GuestKept); // CAPL
    map.register(0x90, 2, 0xD005); // MSI_CAPID
    map.register(0x92, 2, 0x0).mask(0x0071, GuestReset); // MC
    map.register(0x94, 4, 0x0).mask(0xFFFFFFFC, GuestReset); // MA
    map.register(0x98, 2, 0x0).mask(0xFFFF, GuestReset); // MD
    map.register(0xA4, 2, 0x0013); // AFCIDNP
    map.register(0xA6, 2, 0x0306); // AFLC
    map.register(0xA8, 1, 0x0).bits(0, 0, StartsReset); // AFCTL
    map.register(0xD0, 2, 0xA401); // PMCAPID
    map.register(0xD2, 2, 0x0022); // PMCAP
    map.register(0xD4, 2, 0x0).mask(0x0003, PowerState); // PMCS
    map.register(0xE0, 2, 0x0).mask(0xFFFF, GuestKept); // SWSMI
    map.register(0xE4, 4, 0x0).all(GuestKept); // GSE
    map.register(0xE8, 2, 0x0) // SWSCI
        .mask(0x7FFF, GuestKept)
        .bits(15, 15, WriteOnce(Field::SwsciBit15));
    map.register(0xFC, 4, 0x0).all(GuestKept); // ASLS
    map
}
