//! The Broadwell window: its registers, what is around them, and how it goes
//! with resets, busy phases, lanes and claims.

mod common {
    pub mod lanes;
    pub mod registers;
    pub mod rows;
}

use common::lanes::UNDRIVEN;
use common::registers::*;
use common::rows::check_twin;
use second::line::Mode::Console;
use second::refusal::Refusal;
use second::twin::{Claim, Record, Twin};

/// Registers without fault, requests, mirrors or sum.
const CLEAR: [u32; 6] = [0; 6];
/// A number of its own for each register.
const SOME: [u32; 6] = [
    0x0000_1235,
    0x0000_000A,
    0x8760_0001,
    0x0000_0055,
    0xABC0_0000,
    0x89AB_CDEF,
];
/// What only a state of foreign making holds.
const ONES: [u32; 6] = [u32::MAX; 6];

/// A twin with such a window and nothing else changed.
fn with(window: [u32; 6]) -> Twin {
    Twin::of_record(&Record {
        window,
        ..Twin::fresh().record()
    })
}

/// The same twin, busy.
fn busy(twin: &Twin) -> Twin {
    Twin::of_record(&Record {
        busy: 1,
        ..twin.record()
    })
}

/// What the window's registers hold.
fn held(twin: &Twin) -> [u32; 6] {
    twin.record().window
}

/// A dword of the window as a guest reads it.
fn dword(twin: &Twin, offset: u32) -> u32 {
    twin.window_read(offset, 0xF).unwrap()
}

/// A window in which one register holds another number.
fn but(window: [u32; 6], register: u32, dword: u32) -> [u32; 6] {
    let index = REGISTERS.iter().position(|at| *at == register).unwrap();
    let mut changed = window;
    changed[index] = dword;
    changed
}

/// A twin in which that register alone holds something.
fn holding(register: u32, dword: u32) -> Twin {
    with(but(CLEAR, register, dword))
}

/// What a register holds after a guest's write.
fn written(register: u32, before: u32, lanes: u32, value: u32) -> [u32; 6] {
    let mut twin = holding(register, before);
    assert_eq!(twin.window_write(register, lanes, value), Ok(()));
    held(&twin)
}

// ---- offsets and lanes

#[test]
fn a_fresh_window_is_zero() {
    let twin = Twin::fresh();
    assert_eq!(held(&twin), CLEAR);
    for offset in REGISTERS {
        assert_eq!(dword(&twin, offset), 0);
    }
}

#[test]
fn a_record_has_the_registers_by_offset() {
    assert!(REGISTERS.windows(2).all(|pair| pair[0] < pair[1]));
    let twin = with(SOME);
    for (register, wanted) in REGISTERS.into_iter().zip(SOME) {
        assert_eq!(dword(&twin, register), wanted, "{register:06X}");
    }
    for window in [CLEAR, SOME, ONES] {
        assert_eq!(held(&with(window)), window);
    }
}

#[test]
fn every_register_by_every_lanes() {
    let twin = with(SOME);
    for (register, whole) in REGISTERS.into_iter().zip(SOME) {
        for (lanes, undriven) in (0..).zip(UNDRIVEN) {
            let read = twin.window_read(register, lanes);
            assert_eq!(read, Ok(whole | undriven), "{register:06X} {lanes:X}");
        }
        assert_eq!(twin.window_read(register, 0), Ok(u32::MAX));
    }
}

#[test]
fn every_other_dword_is_zero_and_stays_so() {
    let mut twin = with(ONES);
    for offset in (0..0x40_0000).step_by(4) {
        if REGISTERS.contains(&offset) {
            continue;
        }
        assert_eq!(twin.window_write(offset, 0xF, 0x000F_000F), Ok(()));
        assert_eq!(twin.window_write(offset, 0xF, 0), Ok(()));
        assert_eq!(twin.window_write(offset, 0xF, u32::MAX), Ok(()));
        assert_eq!(twin.window_read(offset, 0xF), Ok(0), "{offset:06X}");
        assert_eq!(twin.window_read(offset, 0x6), Ok(0xFF00_00FF));
        assert_eq!(twin.window_read(offset, 0x0), Ok(u32::MAX));
    }
    assert_eq!(held(&twin), ONES);
}

#[test]
fn window_refusals_in_order() {
    for before in [with(SOME), busy(&with(SOME)), with(ONES)] {
        let mut twin = before.clone();
        for (offset, lanes, refusal) in [
            (0x00_0001, 0xF, Refusal::WindowOffset),
            (0x00_4095, 0x0, Refusal::WindowOffset),
            (0x00_810E, 0xF, Refusal::WindowOffset),
            (0x3F_FFFD, 0xF, Refusal::WindowOffset),
            (0x3F_FFFF, 0xF, Refusal::WindowOffset),
            (0x40_0000, 0xF, Refusal::WindowOffset),
            (0x40_0000, 0x10, Refusal::WindowOffset),
            (0x40_4094, 0xF, Refusal::WindowOffset),
            (0xFF_FFFC, 0xF, Refusal::WindowOffset),
            (0x8000_810C, 0xF, Refusal::WindowOffset),
            (0xFFFF_FFFC, 0xF, Refusal::WindowOffset),
            (0xFFFF_FFFF, u32::MAX, Refusal::WindowOffset),
            (FAULT_REG, 0x10, Refusal::Lanes),
            (ASSRREQ, 0x1F, Refusal::Lanes),
            (0x00_0000, 0x8000_0000, Refusal::Lanes),
            (0x3F_FFFC, u32::MAX, Refusal::Lanes),
        ] {
            assert_eq!(twin.window_read(offset, lanes), Err(refusal));
            for value in [0, 0x000F_000F, u32::MAX] {
                assert_eq!(twin.window_write(offset, lanes, value), Err(refusal));
            }
        }
        assert_eq!(twin, before);
        assert_eq!(Refusal::WindowOffset.number(), 16);
    }
}

#[test]
fn the_ends_of_the_window_are_accepted() {
    let mut twin = with(SOME);
    for offset in [0x00_0000, 0x3F_FFFC] {
        assert_eq!(twin.window_write(offset, 0xF, u32::MAX), Ok(()));
        assert_eq!(twin.window_read(offset, 0xF), Ok(0));
    }
}

// ---- ASSRREQ

#[test]
fn requests() {
    for (before, lanes, value, after) in [
        // A one with its mask bit, all lanes.
        (0x0, 0xF, 0x0001_0001, 0x1),
        (0x0, 0xF, 0x0008_0008, 0x8),
        (0x0, 0xF, 0x000F_000F, 0xF),
        (0x0, 0xF, 0xFFFF_FFFF, 0xF),
        (0x5, 0xF, 0x0002_0002, 0x7),
        // The mask bit is missing, or another one is there.
        (0x0, 0xF, 0x0000_000F, 0x0),
        (0x0, 0xF, 0x0000_FFFF, 0x0),
        (0x0, 0xF, 0x0008_0004, 0x0),
        (0x0, 0xF, 0x0003_0006, 0x2),
        (0x0, 0xF, 0xFFF0_000F, 0x0),
        // The one is missing: nothing is cleared.
        (0xF, 0xF, 0x000F_0000, 0xF),
        (0xA, 0xF, 0x000F_0001, 0xB),
        (0xF, 0xF, 0x0000_0000, 0xF),
        // Other bits than 3:0 aren't set, with their mask bits or without.
        (0x0, 0xF, 0x4000_4000, 0x0),
        (0x0, 0xF, 0xFFF0_FFF0, 0x0),
        // Both lanes count, lanes 1 and 3 don't.
        (0x0, 0x5, 0x000F_000F, 0xF),
        (0x0, 0x7, 0x000F_000F, 0xF),
        (0x0, 0xD, 0x000F_000F, 0xF),
        (0x0, 0xE, 0x000F_000F, 0x0),
        (0x0, 0xB, 0x000F_000F, 0x0),
        (0x0, 0x1, 0x000F_000F, 0x0),
        (0x0, 0x4, 0x000F_000F, 0x0),
        (0x0, 0xA, 0x000F_000F, 0x0),
        (0x0, 0x0, 0x000F_000F, 0x0),
        (0x3, 0x0, 0x000F_000F, 0x3),
    ] {
        let wanted = but(CLEAR, ASSRREQ, after);
        let held = written(ASSRREQ, before, lanes, value);
        assert_eq!(held, wanted, "{before:X}: {lanes:X} {value:08X}");
    }
}

#[test]
fn every_request_with_every_mask_and_lanes() {
    for (requests, mask, lanes) in (0..16 * 16 * 16).map(|n| (n % 16, n / 16 % 16, n / 256)) {
        let set = if lanes & 0x5 == 0x5 {
            requests & mask
        } else {
            0
        };
        for before in 0..16 {
            let held = written(ASSRREQ, before, lanes, requests | mask << 16);
            assert_eq!(held, but(CLEAR, ASSRREQ, before | set));
        }
    }
}

#[test]
fn a_request_in_two_halves_is_none() {
    let mut twin = Twin::fresh();
    twin.window_write(ASSRREQ, 0xC, 0x000F_000F).unwrap();
    twin.window_write(ASSRREQ, 0x3, 0x000F_000F).unwrap();
    assert_eq!(held(&twin), CLEAR);
}

#[test]
fn the_mask_reads_zero() {
    let mut twin = Twin::fresh();
    twin.window_write(ASSRREQ, 0xF, 0xFFFF_FFFF).unwrap();
    assert_eq!(dword(&twin, ASSRREQ), 0xF);
    assert_eq!(twin.window_read(ASSRREQ, 0xC), Ok(0x0000_FFFF));
    assert_eq!(twin.window_read(ASSRREQ, 0x4), Ok(0xFF00_FFFF));
    // A mask that is held all the same, and bits 15:4, which are shown.
    let twin = holding(ASSRREQ, 0xFFFF_FFF5);
    assert_eq!(dword(&twin, ASSRREQ), 0xFFF5);
    assert_eq!(twin.window_read(ASSRREQ, 0x8), Ok(0x00FF_FFFF));
    assert_eq!(twin.window_read(ASSRREQ, 0x2), Ok(0xFFFF_FFFF));
}

#[test]
fn completions() {
    for before in 0..16 {
        for mask in 0..16 {
            let mut twin = holding(ASSRREQ, before);
            assert_eq!(twin.complete(mask), Ok(()));
            assert_eq!(held(&twin), but(CLEAR, ASSRREQ, before & !mask));
        }
        let mut twin = holding(ASSRREQ, before);
        for place in 4..32 {
            assert_eq!(twin.complete(1 << place), Err(Refusal::NotHost));
            assert_eq!(twin.complete(1 << place | 0xF), Err(Refusal::NotHost));
        }
        assert_eq!(twin.complete(0x000F_0000), Err(Refusal::NotHost));
        assert_eq!(twin.complete(u32::MAX), Err(Refusal::NotHost));
        assert_eq!(held(&twin), but(CLEAR, ASSRREQ, before));
    }
}

#[test]
fn a_completed_request_can_be_made_again() {
    let mut twin = Twin::fresh();
    for _ in 0..3 {
        twin.window_write(ASSRREQ, 0x5, 0x0004_0004).unwrap();
        assert_eq!(dword(&twin, ASSRREQ), 0x4);
        twin.complete(0x4).unwrap();
        assert_eq!(dword(&twin, ASSRREQ), 0);
    }
}

// ---- FAULT_REG

#[test]
fn the_first_fault_is_held() {
    let mut twin = Twin::fresh();
    assert_eq!(twin.fault(0x1234), Ok(()));
    assert_eq!(held(&twin), but(CLEAR, FAULT_REG, 0x1235));
    // The later ones are lost, though accepted.
    for word in [0x0000, 0x1234, 0x4002, 0x77FE] {
        assert_eq!(twin.fault(word), Ok(()));
        assert_eq!(held(&twin), but(CLEAR, FAULT_REG, 0x1235));
    }
    twin.window_write(FAULT_REG, 0x1, 0).unwrap();
    assert_eq!(held(&twin), CLEAR);
    assert_eq!(twin.fault(0x4002), Ok(()));
    assert_eq!(held(&twin), but(CLEAR, FAULT_REG, 0x4003));
}

#[test]
fn a_word_without_ones_is_a_fault_too() {
    let mut twin = Twin::fresh();
    assert_eq!(twin.fault(0), Ok(()));
    assert_eq!(dword(&twin, FAULT_REG), 1);
    assert_eq!(twin.fault(0x77FE), Ok(()));
    assert_eq!(dword(&twin, FAULT_REG), 1);
}

#[test]
fn every_bit_of_a_fault_word() {
    // Engine 14:12, source 10:3, type 2:1.
    let given = [1, 2, 3, 4, 5, 6, 7, 8, 9, 10, 12, 13, 14];
    for place in 0..32 {
        let word = 1 << place;
        let mut twin = Twin::fresh();
        let mut other = holding(FAULT_REG, 0x2003);
        if given.contains(&place) {
            assert_eq!(twin.fault(word), Ok(()));
            assert_eq!(held(&twin), but(CLEAR, FAULT_REG, word | 1));
            assert_eq!(other.fault(word), Ok(()));
        } else {
            assert_eq!(twin.fault(word), Err(Refusal::NotHost));
            assert_eq!(twin.fault(word | 0x77FE), Err(Refusal::NotHost));
            assert_eq!(held(&twin), CLEAR);
            // A fault that is held makes no bad word good.
            assert_eq!(other.fault(word), Err(Refusal::NotHost));
        }
        assert_eq!(held(&other), but(CLEAR, FAULT_REG, 0x2003));
    }
}

#[test]
fn clears() {
    for (before, lanes, value, after) in [
        (0x77FF, 0xF, 0x0000_0000, 0),
        (0x77FF, 0x1, 0x0000_0000, 0),
        (0x77FF, 0x1, 0xFFFF_FFFE, 0),
        (0x77FF, 0xF, 0xFFFF_FFFE, 0),
        (0x77FF, 0x3, 0x0000_77FE, 0),
        (0x0001, 0x9, 0x0000_0000, 0),
        (0x0000, 0xF, 0x0000_77FE, 0),
        // Bit 0 one.
        (0x77FF, 0xF, 0x0000_0001, 0x77FF),
        (0x77FF, 0xF, 0xFFFF_FFFF, 0x77FF),
        (0x1235, 0x1, 0x0000_0001, 0x1235),
        (0x0000, 0xF, 0xFFFF_FFFF, 0),
        // Lane 0 off.
        (0x77FF, 0xE, 0x0000_0000, 0x77FF),
        (0x77FF, 0x2, 0x0000_0000, 0x77FF),
        (0x77FF, 0x0, 0x0000_0000, 0x77FF),
        (0x77FF, 0xC, 0xFFFF_FFFE, 0x77FF),
        (0x77FF, 0xE, 0xFFFF_FFFF, 0x77FF),
        // What only a state of foreign making holds.
        (0xFFFF_FFFF, 0x1, 0x0000_0000, 0),
        (0xFFFF_FFFE, 0x1, 0x0000_0000, 0),
        (0xFFFF_FFFE, 0xF, 0x0000_0001, 0xFFFF_FFFE),
    ] {
        let wanted = but(CLEAR, FAULT_REG, after);
        let held = written(FAULT_REG, before, lanes, value);
        assert_eq!(held, wanted, "{before:08X}: {lanes:X} {value:08X}");
    }
}

#[test]
fn a_fault_over_a_foreign_state() {
    let mut twin = holding(FAULT_REG, 0xFFFF_FFFE);
    assert_eq!(twin.fault(0x8000), Err(Refusal::NotHost));
    assert_eq!(dword(&twin, FAULT_REG), 0xFFFF_FFFE);
    assert_eq!(twin.fault(0x0002), Ok(()));
    assert_eq!(dword(&twin, FAULT_REG), 0x0000_0003);
    let mut twin = holding(FAULT_REG, 0xFFFF_FFFF);
    assert_eq!(twin.fault(0x0002), Ok(()));
    assert_eq!(dword(&twin, FAULT_REG), 0xFFFF_FFFF);
}

// ---- the DRAM cycle sum

#[test]
fn cycles() {
    for (before, count, after) in [
        (0x0000_0000, 0x0000_0000, 0x0000_0000),
        (0x0000_0000, 0xFFFF_FFFF, 0xFFFF_FFFF),
        (0x0000_0001, 0x0000_0001, 0x0000_0002),
        (0x0000_FFFF, 0x0000_0001, 0x0001_0000),
        (0x7FFF_FFFF, 0x0000_0001, 0x8000_0000),
        (0x1234_5678, 0x1111_1111, 0x2345_6789),
        // Past 32 bits.
        (0xFFFF_FFFF, 0x0000_0001, 0x0000_0000),
        (0xFFFF_FFFF, 0x0000_0002, 0x0000_0001),
        (0x0000_0001, 0xFFFF_FFFF, 0x0000_0000),
        (0xFFFF_FFFF, 0xFFFF_FFFF, 0xFFFF_FFFE),
        (0x8000_0000, 0x8000_0000, 0x0000_0000),
        (0xFFFF_FFF0, 0x0000_0025, 0x0000_0015),
    ] {
        let mut twin = holding(CYCLE_SUM, before);
        twin.add_cycles(count);
        assert_eq!(
            held(&twin),
            but(CLEAR, CYCLE_SUM, after),
            "{before:08X} {count:08X}"
        );
    }
}

#[test]
fn the_sum_is_not_for_guests() {
    for lanes in 0..16 {
        for value in [0, 1, 0x000F_000F, u32::MAX] {
            let held = written(CYCLE_SUM, 0x89AB_CDEF, lanes, value);
            assert_eq!(held, but(CLEAR, CYCLE_SUM, 0x89AB_CDEF));
        }
    }
}

// ---- mirrors

/// The mirrors, and the bits of each that are updated.
const MIRRORS: [(u32, u32); 3] = [
    (MBDSM, 0xFFF0_0001),
    (MTOUUD, 0xFFF0_0001),
    (MTOUUD_HIGH, 0x0000_007F),
];

#[test]
fn mirror_updates_take_masked_bits_alone() {
    for (offset, mask, before, value, after) in [
        (MBDSM, 0xFFF0_0001, 0x0000_0000, 0xFFFF_FFFF, 0xFFF0_0001),
        (MBDSM, 0xFFF0_0001, 0xFFF0_0001, 0x1230_0000, 0x1230_0000),
        (MBDSM, 0x0000_0001, 0xABC0_0000, 0x0000_0001, 0xABC0_0001),
        (MBDSM, 0x00F0_0000, 0xABC0_0001, 0x1230_0000, 0xAB30_0001),
        (MTOUUD, 0xFFF0_0000, 0x0000_0001, 0x8000_0000, 0x8000_0001),
        (MTOUUD, 0x0000_0000, 0x8000_0001, 0xFFFF_FFFF, 0x8000_0001),
        (
            MTOUUD_HIGH,
            0x0000_007F,
            0x0000_0000,
            0xFFFF_FFFF,
            0x0000_007F,
        ),
        (
            MTOUUD_HIGH,
            0x0000_0014,
            0x0000_0071,
            0x0000_0004,
            0x0000_0065,
        ),
    ] {
        let mut twin = holding(offset, before);
        assert_eq!(twin.mirror_update(offset, mask, value), Ok(()));
        assert_eq!(held(&twin), but(CLEAR, offset, after));
    }
}

#[test]
fn every_bit_of_every_mirror() {
    for (offset, mask) in MIRRORS {
        for place in 0..32 {
            let bit = 1 << place;
            for (window, value) in [(CLEAR, u32::MAX), (ONES, 0)] {
                let mut twin = with(window);
                if mask >> place & 1 == 1 {
                    assert_eq!(twin.mirror_update(offset, bit, value), Ok(()));
                    let wanted = if value == 0 { !bit } else { bit };
                    assert_eq!(held(&twin), but(window, offset, wanted));
                } else {
                    let refusal = Err(Refusal::NotHost);
                    assert_eq!(twin.mirror_update(offset, bit, value), refusal);
                    assert_eq!(twin.mirror_update(offset, mask | bit, value), refusal);
                    assert_eq!(held(&twin), window);
                }
            }
        }
        let mut twin = with(SOME);
        assert_eq!(twin.mirror_update(offset, 0, u32::MAX), Ok(()));
        assert_eq!(held(&twin), SOME);
    }
}

#[test]
fn updates_elsewhere() {
    // The neighbours of the mirrors, the other registers, and both ends.
    for offset in [
        0x10_807C, 0x10_8088, 0x10_80BC, 0x10_80C4, FAULT_REG, ASSRREQ, CYCLE_SUM, 0x00_0000,
        0x3F_FFFC,
    ] {
        let mut twin = with(SOME);
        assert_eq!(twin.mirror_update(offset, 0, u32::MAX), Ok(()));
        for mask in [0x0000_0001, 0x0000_000F, 0xFFF0_0001, 0x77FE, u32::MAX] {
            let refused = twin.mirror_update(offset, mask, u32::MAX);
            assert_eq!(refused, Err(Refusal::NotHost), "{offset:06X} {mask:08X}");
        }
        assert_eq!(held(&twin), SOME);
    }
}

#[test]
fn update_refusals_in_order() {
    let mut twin = with(SOME);
    for offset in [
        0x10_80C1,
        0x10_80C2,
        0x10_8083,
        0x10_8087,
        0x00_0001,
        0x3F_FFFF,
        0x40_0000,
        0x50_80C0,
        0x50_8080,
        0xFF_FFFC,
        0x8010_80C0,
        u32::MAX,
    ] {
        for mask in [0, 0x0000_0001, 0xFFF0_0001, u32::MAX] {
            assert_eq!(
                twin.mirror_update(offset, mask, u32::MAX),
                Err(Refusal::WindowOffset),
                "{offset:06X} {mask:08X}"
            );
        }
    }
    assert_eq!(held(&twin), SOME);
}

#[test]
fn mirrors_are_not_for_guests() {
    for (offset, _) in MIRRORS {
        for lanes in 0..16 {
            for value in [0, 1, 0x000F_000F, u32::MAX] {
                for before in [0, 0xABC0_0001, u32::MAX] {
                    let held = written(offset, before, lanes, value);
                    assert_eq!(held, but(CLEAR, offset, before));
                }
            }
        }
    }
}

// ---- resets

#[test]
fn a_function_reset_leaves_the_window() {
    for window in [SOME, ONES] {
        let mut twin = with(window);
        twin.guest_write(0xA8, 0x1, 1).unwrap();
        assert!(twin.is_busy());
        assert_eq!(held(&twin), window);
        twin.end_signal();
        assert!(!twin.is_busy());
        assert_eq!(held(&twin), window);
        twin.end_signal();
        assert_eq!(held(&twin), window);
    }
}

#[test]
fn a_platform_reset_clears_the_window() {
    for before in [with(SOME), with(ONES), busy(&with(ONES))] {
        let mut twin = before;
        twin.platform_reset();
        assert_eq!(twin, Twin::fresh());
        assert_eq!(held(&twin), CLEAR);
    }
}

#[test]
fn the_window_and_the_function_are_apart() {
    let mut twin = with(ONES);
    for offset in (0..256).step_by(4) {
        twin.guest_write(offset, 0xF, u32::MAX).unwrap();
    }
    twin.host_update(0x02, 0xFF, 0xFF).unwrap();
    twin.port_write(0xCF8, 4, u32::MAX).unwrap();
    assert_eq!(held(&twin), ONES);
    let mut twin = Twin::fresh();
    twin.window_write(ASSRREQ, 0xF, u32::MAX).unwrap();
    twin.fault(0x77FE).unwrap();
    twin.add_cycles(u32::MAX);
    for (offset, mask) in MIRRORS {
        twin.mirror_update(offset, mask, u32::MAX).unwrap();
    }
    let changed = [
        0x0000_77FF,
        0x0000_000F,
        0xFFF0_0001,
        0x0000_007F,
        0xFFF0_0001,
        0xFFFF_FFFF,
    ];
    assert_eq!(twin, with(changed));
}

// ---- while busy

#[test]
fn window_reads_are_ones_while_busy() {
    for twin in [busy(&Twin::fresh()), busy(&with(SOME))] {
        for offset in REGISTERS.into_iter().chain([0x00_0000, 0x3F_FFFC]) {
            for lanes in 0..16 {
                assert_eq!(twin.window_read(offset, lanes), Ok(u32::MAX));
            }
        }
    }
}

#[test]
fn window_writes_are_dropped_while_busy() {
    let before = busy(&with(SOME));
    let mut twin = before.clone();
    for offset in REGISTERS.into_iter().chain([0x00_0000, 0x3F_FFFC]) {
        for lanes in 0..16 {
            for value in [0, 0x000F_000F, u32::MAX] {
                assert_eq!(twin.window_write(offset, lanes, value), Ok(()));
            }
        }
    }
    assert_eq!(twin, before);
}

#[test]
fn the_host_works_on_a_busy_window() {
    let mut twin = busy(&holding(ASSRREQ, 0xF));
    assert_eq!(twin.complete(0x6), Ok(()));
    assert_eq!(twin.complete(0x10), Err(Refusal::NotHost));
    assert_eq!(twin.fault(0x5550), Ok(()));
    assert_eq!(twin.fault(0x2222), Ok(()));
    assert_eq!(twin.fault(0x0001), Err(Refusal::NotHost));
    twin.add_cycles(0xFFFF_FFFF);
    twin.add_cycles(0x0000_0011);
    assert_eq!(twin.mirror_update(MTOUUD, 0xFFF0_0001, 0x4560_0001), Ok(()));
    assert_eq!(twin.mirror_update(MTOUUD_HIGH, 0x7F, 0x7F), Ok(()));
    assert_eq!(
        twin.mirror_update(MBDSM, 0x2, 0xFFFF_FFFF),
        Err(Refusal::NotHost)
    );
    assert_eq!(
        twin.mirror_update(0x40_0000, 0x2, 0),
        Err(Refusal::WindowOffset)
    );
    assert_eq!(dword(&twin, ASSRREQ), u32::MAX);
    twin.end_signal();
    let wanted = [
        0x0000_5551,
        0x0000_0009,
        0x4560_0001,
        0x0000_007F,
        0x0000_0000,
        0x0000_0010,
    ];
    assert_eq!(twin, with(wanted));
}

// ---- from a claimed address to a register

#[test]
fn a_claimed_address_leads_to_a_register() {
    let mut twin = Twin::fresh();
    twin.guest_write(0x14, 0xF, 0x0000_0012).unwrap();
    twin.guest_write(0x10, 0xF, 0xE7C0_0000).unwrap();
    twin.guest_write(0x04, 0x1, 2).unwrap();
    let base = 0x0000_0012_E7C0_0000;
    let inside = |twin: &Twin, address| match twin.claim_memory(address) {
        Claim::Translation(offset) => offset,
        other => panic!("{address:016X}: {other:?}"),
    };

    // The guest asks for two resets, and the host completes one of them.
    let assrreq = inside(&twin, base + 0x810C);
    assert_eq!(assrreq, ASSRREQ);
    twin.window_write(assrreq, 0xF, 0x0006_0006).unwrap();
    assert_eq!(twin.window_read(assrreq, 0xF), Ok(0x0000_0006));
    twin.complete(0x2).unwrap();
    assert_eq!(twin.window_read(assrreq, 0xF), Ok(0x0000_0004));

    // A fault is seen and cleared there.
    twin.fault(0x3010).unwrap();
    let fault_reg = inside(&twin, 0x0000_0012_E7C0_4094);
    assert_eq!(twin.window_read(fault_reg, 0xF), Ok(0x0000_3011));
    twin.window_write(fault_reg, 0x1, 0).unwrap();
    assert_eq!(twin.window_read(fault_reg, 0xF), Ok(0));

    // The last dword of the claimed 4 MB is the last of the window.
    let last = inside(&twin, 0x0000_0012_E7FF_FFFC);
    assert_eq!(twin.window_read(last, 0xF), Ok(0));
    assert_eq!(twin.window_read(last + 4, 0xF), Err(Refusal::WindowOffset));
    assert_eq!(twin.claim_memory(base + 0x40_0000), Claim::None);

    // A function reset takes the base away and leaves the registers.
    twin.guest_write(0xA8, 0x1, 1).unwrap();
    assert_eq!(twin.claim_memory(base + 0x810C), Claim::None);
    assert_eq!(twin.window_read(ASSRREQ, 0xF), Ok(u32::MAX));
    twin.end_signal();
    assert_eq!(twin.claim_memory(base + 0x810C), Claim::None);
    twin.guest_write(0x04, 0x1, 2).unwrap();
    let assrreq = inside(&twin, 0x810C);
    assert_eq!(twin.window_read(assrreq, 0xF), Ok(0x0000_0004));
}

#[test]
fn every_register_has_a_claimed_address() {
    for low in [0x0000_0000, 0x0040_0000, 0xFFC0_0000] {
        let mut twin = with(SOME);
        twin.guest_write(0x14, 0xF, u32::MAX).unwrap();
        twin.guest_write(0x10, 0xF, low).unwrap();
        twin.guest_write(0x04, 0x1, 7).unwrap();
        let base = 0xFFFF_FFFF_0000_0000 | u64::from(low);
        for (register, wanted) in REGISTERS.into_iter().zip(SOME) {
            let claim = twin.claim_memory(base + u64::from(register));
            assert_eq!(claim, Claim::Translation(register));
            assert_eq!(twin.window_read(register, 0xF), Ok(wanted));
        }
    }
}

// ---- sessions

#[test]
fn a_session_of_the_window() {
    check_twin(
        Console,
        &[
            // Requests.
            ("U 00810C F", "OK 00000000"),
            ("V 00810C F 00030001", "OK"),
            ("U 00810C F", "OK 00000001"),
            ("V 00810C B 000F000F", "OK"),
            ("U 00810C 1", "OK FFFFFF01"),
            ("V 00810C 5 000C000C", "OK"),
            ("U 00810C 5", "OK FF00FF0D"),
            ("U 00810C C", "OK 0000FFFF"),
            ("U 00810C 0", "OK FFFFFFFF"),
            ("C 00000010", "NO 7"),
            ("C 0000000C", "OK"),
            ("U 00810C F", "OK 00000001"),
            // A fault, one that is lost, and a clear.
            ("F 00007354", "OK"),
            ("F 00000002", "OK"),
            ("F 00008000", "NO 7"),
            ("F 00000001", "NO 7"),
            ("U 004094 F", "OK 00007355"),
            ("V 004094 E 00000000", "OK"),
            ("V 004094 F 00000001", "OK"),
            ("U 004094 3", "OK FFFF7355"),
            ("V 004094 1 FFFFFFFE", "OK"),
            ("U 004094 F", "OK 00000000"),
            ("F 00000002", "OK"),
            ("U 004094 F", "OK 00000003"),
            // The cycle sum.
            ("T FFFFFFFE", "OK"),
            ("U 138078 F", "OK FFFFFFFE"),
            ("V 138078 F 00000000", "OK"),
            ("T 00000005", "OK"),
            ("U 138078 F", "OK 00000003"),
            // The mirrors.
            ("Y 1080C0 FFF00001 ABCDEF01", "OK"),
            ("U 1080C0 F", "OK ABC00001"),
            ("Y 1080C0 00000002 FFFFFFFF", "NO 7"),
            ("Y 108080 00100000 FFFFFFFF", "OK"),
            ("U 108080 F", "OK 00100000"),
            ("Y 108084 0000007F 0000002A", "OK"),
            ("Y 108084 00000080 00000000", "NO 7"),
            ("V 108084 F FFFFFFFF", "OK"),
            ("U 108084 F", "OK 0000002A"),
            ("Y 108088 00000001 00000000", "NO 7"),
            ("Y 108088 00000000 FFFFFFFF", "OK"),
            ("Y 108081 FFFFFFFF 00000000", "NO 16"),
            ("Y 400000 00000000 00000000", "NO 16"),
            // Offsets.
            ("U 00810D F", "NO 16"),
            ("V 40810C F 000F000F", "NO 16"),
            ("U FFFFFF 0", "NO 16"),
            ("V 3FFFFC F FFFFFFFF", "OK"),
            ("U 3FFFFC F", "OK 00000000"),
            ("U 3FFFFC 9", "OK 00FFFF00"),
            // A function reset.
            ("W A8 1 00000001", "OK"),
            ("U 00810C F", "OK FFFFFFFF"),
            ("U 000000 0", "OK FFFFFFFF"),
            ("U 000002 F", "NO 16"),
            ("V 00810C F 000F000F", "OK"),
            ("V 004094 F 00000000", "OK"),
            ("V 400000 F 00000000", "NO 16"),
            ("C 00000001", "OK"),
            ("T 00000001", "OK"),
            ("Y 1080C0 00000001 00000000", "OK"),
            ("E", "OK"),
            ("U 00810C F", "OK 00000000"),
            ("U 004094 F", "OK 00000003"),
            ("U 138078 F", "OK 00000004"),
            ("U 1080C0 F", "OK ABC00000"),
            ("U 108084 F", "OK 0000002A"),
            // A platform reset.
            ("P", "OK"),
            ("U 004094 F", "OK 00000000"),
            ("U 138078 F", "OK 00000000"),
            ("U 1080C0 F", "OK 00000000"),
            ("U 108084 F", "OK 00000000"),
        ],
    );
}

#[test]
fn a_session_from_a_claim_to_a_register() {
    check_twin(
        Console,
        &[
            ("W 10 F F7800000", "OK"),
            ("A 00000000F780810C", "OK NONE"),
            ("W 04 1 00000002", "OK"),
            ("A 00000000F780810C", "OK TRANSLATION 0000810C"),
            ("V 00810C F 00080008", "OK"),
            ("U 00810C F", "OK 00000008"),
            ("A 00000000F79080C0", "OK TRANSLATION 001080C0"),
            ("Y 1080C0 FFF00000 7F000000", "OK"),
            ("U 1080C0 C", "OK 7F00FFFF"),
            ("A 00000000F7BFFFFF", "OK TRANSLATION 003FFFFF"),
            ("A 00000000F7C0810C", "OK NONE"),
            ("W A8 1 00000001", "OK"),
            ("A 00000000F780810C", "OK NONE"),
            ("U 00810C F", "OK FFFFFFFF"),
            ("E", "OK"),
            ("A 000000000000810C", "OK NONE"),
            ("U 00810C F", "OK 00000008"),
        ],
    );
}
