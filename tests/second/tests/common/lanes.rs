//! Byte lanes of a dword.

/// The bits of the lanes that aren't enabled, by lanes.
pub const UNDRIVEN: [u32; 16] = [
    0xFFFF_FFFF,
    0xFFFF_FF00,
    0xFFFF_00FF,
    0xFFFF_0000,
    0xFF00_FFFF,
    0xFF00_FF00,
    0xFF00_00FF,
    0xFF00_0000,
    0x00FF_FFFF,
    0x00FF_FF00,
    0x00FF_00FF,
    0x00FF_0000,
    0x0000_FFFF,
    0x0000_FF00,
    0x0000_00FF,
    0x0000_0000,
];
