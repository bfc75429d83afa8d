//! Where the window's registers lie, by the paper.

pub const FAULT_REG: u32 = 0x00_4094;
pub const ASSRREQ: u32 = 0x00_810C;
pub const MTOUUD: u32 = 0x10_8080;
pub const MTOUUD_HIGH: u32 = 0x10_8084;
pub const MBDSM: u32 = 0x10_80C0;
pub const CYCLE_SUM: u32 = 0x13_8078;

/// All of them, in a record's order.
pub const REGISTERS: [u32; 6] = [FAULT_REG, ASSRREQ, MTOUUD, MTOUUD_HIGH, MBDSM, CYCLE_SUM];
