//! A function reset takes time: its start, the busy state, and its end.

mod common {
    pub mod rows;
}

use common::rows::check_twin;
use second::line::Mode::{Console, Player};
use second::refusal::Refusal;
use second::twin::{Claim, Record, Twin};
use second::walk::Walk;

/// The busy bytes that are tried: one of our making and some of foreign making.
const BUSY: [u8; 5] = [1, 2, 7, 0x80, 0xFF];

/// A record of one byte all over, with fields open and closed.
fn foreign(byte: u8, busy: u8) -> Record {
    Record {
        bytes: [byte; 256],
        latch: 0x8000_1000,
        closed: [0, 9, 1],
        busy,
        window: [u32::from_le_bytes([byte; 4]); 6],
    }
}

/// A twin with bits that differ from their defaults in every kind of register.
fn changed() -> Twin {
    let mut twin = Twin::fresh();
    for offset in (0..256).step_by(4).filter(|offset| *offset != 0xA8) {
        twin.guest_write(offset, 0xF, u32::MAX).unwrap();
    }
    twin.host_update(0x02, 0xFF, 0xFF).unwrap();
    twin
}

/// A fresh twin that is busy.
fn fresh_but_busy() -> Twin {
    let mut twin = Twin::fresh();
    twin.guest_write(0xA8, 0x1, 1).unwrap();
    twin
}

/// The dword's offset on the function's latch.
fn latch(offset: u32) -> u32 {
    0x8000_1000 | offset
}

// ---- the start

#[test]
fn a_start_changes_nothing_but_busy() {
    for before in [
        Twin::fresh().record(),
        changed().record(),
        foreign(0x00, 0),
        foreign(0xFF, 0),
        foreign(0x55, 0),
    ] {
        let after = Record { busy: 1, ..before };
        for (lanes, value) in [(0x1, 1), (0x1, u32::MAX), (0xF, 1), (0x5, 0xFFFF_FF01)] {
            let mut twin = Twin::of_record(&before);
            assert_eq!(twin.guest_write(0xA8, lanes, value), Ok(()));
            assert_eq!(twin.record(), after);
        }
    }
}

#[test]
fn a_start_through_the_ports() {
    for (width, value) in [(1, 1), (1, 0xFFFF_FF01), (2, 0xABCD_0001), (4, u32::MAX)] {
        let mut twin = changed();
        twin.port_write(0xCF8, 4, latch(0xA8)).unwrap();
        let before = twin.record();
        assert_eq!(twin.port_write(0xCFC, width, value), Ok(()));
        assert_eq!(twin.record(), Record { busy: 1, ..before });
    }
}

#[test]
fn what_does_not_start() {
    for before in [changed().record(), foreign(0xFF, 0), foreign(0x00, 0)] {
        for (offset, lanes, value) in [
            (0xA8, 0x0, u32::MAX),
            (0xA8, 0xE, u32::MAX),
            (0xA8, 0x2, 0x0101_0101),
            (0xA8, 0xF, 0xFFFF_FFFE),
            (0xA8, 0x1, 0),
            (0xA4, 0xF, u32::MAX),
            (0xAC, 0xF, u32::MAX),
        ] {
            let mut twin = Twin::of_record(&before);
            assert_eq!(twin.guest_write(offset, lanes, value), Ok(()));
            assert_eq!(twin.record(), before, "{offset:02X} {lanes:X} {value:08X}");
        }
    }
    for (port, width, value) in [
        (0xCFC, 1, 0xFFFF_FFFE),
        (0xCFC, 4, 0xFFFF_FFFE),
        (0xCFD, 1, 1),
        (0xCFE, 2, 1),
        (0xCFF, 1, 1),
    ] {
        let mut twin = changed();
        twin.port_write(0xCF8, 4, latch(0xA8)).unwrap();
        let before = twin.record();
        assert_eq!(twin.port_write(port, width, value), Ok(()));
        assert_eq!(twin.record(), before);
    }
}

#[test]
fn a_refused_write_does_not_start() {
    let mut twin = Twin::fresh();
    assert_eq!(twin.guest_write(0xA9, 0x1, 1), Err(Refusal::Offset));
    assert_eq!(twin.guest_write(0x1A8, 0x1, 1), Err(Refusal::Offset));
    assert_eq!(twin.guest_write(0xA8, 0x11, 1), Err(Refusal::Lanes));
    assert_eq!(twin, Twin::fresh());
    twin.port_write(0xCF8, 4, 0x8000_18A8).unwrap();
    assert_eq!(twin.port_write(0xCFC, 1, 1), Err(Refusal::OtherFunction));
    twin.port_write(0xCF8, 4, latch(0xA8)).unwrap();
    assert_eq!(twin.port_write(0xCFC, 3, 1), Err(Refusal::Width));
    assert_eq!(twin.port_write(0xCFB, 1, 1), Err(Refusal::NotOurs));
    assert!(!twin.is_busy());
}

// ---- the end

/// What an end leaves of a record that is all ones: the paper's F bits at their
/// defaults, which are all 0, and AFCTL bit 0 at 0.
const ONES_AFTER_AN_END: [(usize, u8); 26] = [
    (0x04, 0xF8), // PCICMD2, 0407
    (0x05, 0xFB),
    (0x12, 0x3F), // GTTMMADR, 63:22
    (0x13, 0x00),
    (0x14, 0x00),
    (0x15, 0x00),
    (0x16, 0x00),
    (0x17, 0x00),
    (0x1B, 0x07), // GMADR, 63:27
    (0x1C, 0x00),
    (0x1D, 0x00),
    (0x1E, 0x00),
    (0x1F, 0x00),
    (0x20, 0x3F), // IOBAR, FFC0
    (0x21, 0x00),
    (0x60, 0x00), // HSRW
    (0x61, 0x00),
    (0x92, 0x8E), // MC, 0071
    (0x94, 0x03), // MA, FFFFFFFC
    (0x95, 0x00),
    (0x96, 0x00),
    (0x97, 0x00),
    (0x98, 0x00), // MD
    (0x99, 0x00),
    (0xA8, 0xFE), // AFCTL, bit 0
    (0xD4, 0xFC), // PMCS, 0003
];

#[test]
fn an_end_when_busy() {
    for busy in BUSY {
        let mut wanted = foreign(0xFF, 0);
        for (at, byte) in ONES_AFTER_AN_END {
            wanted.bytes[at] = byte;
        }
        let mut twin = Twin::of_record(&foreign(0xFF, busy));
        twin.end_signal();
        assert_eq!(twin.record(), wanted);
        let mut twin = Twin::of_record(&foreign(0x00, busy));
        twin.end_signal();
        assert_eq!(twin.record(), foreign(0x00, 0));
    }
}

#[test]
fn an_end_when_not_busy_changes_nothing() {
    for before in [
        Twin::fresh().record(),
        changed().record(),
        foreign(0xFF, 0),
        foreign(0x00, 0),
    ] {
        let mut twin = Twin::of_record(&before);
        twin.end_signal();
        assert_eq!(twin.record(), before);
    }
}

#[test]
fn a_second_end_changes_nothing() {
    let mut twin = fresh_but_busy();
    twin.end_signal();
    assert_eq!(twin, Twin::fresh());
    twin.guest_write(0x04, 0x1, 7).unwrap();
    twin.end_signal();
    assert_eq!(twin.guest_read(0x04, 0xF), Ok(0x00900007));
}

#[test]
fn every_write_of_1_starts_anew() {
    let mut twin = Twin::fresh();
    for _ in 0..3 {
        twin.guest_write(0x98, 0x3, 0x1234).unwrap();
        assert_eq!(twin.guest_read(0x98, 0xF), Ok(0x1234));
        twin.guest_write(0xA8, 0x1, 1).unwrap();
        assert_eq!(twin.guest_read(0xA8, 0xF), Ok(u32::MAX));
        twin.end_signal();
        assert_eq!(twin.guest_read(0xA8, 0xF), Ok(0));
        assert_eq!(twin.guest_read(0x98, 0xF), Ok(0));
    }
}

#[test]
fn a_held_bit_of_afctl_waits_for_the_end() {
    let mut record = foreign(0x00, 0);
    record.bytes[0xA8] = 0x01;
    let mut twin = Twin::of_record(&record);
    assert_eq!(twin.guest_read(0xA8, 0xF), Ok(1));
    twin.guest_write(0xA8, 0x1, 0).unwrap();
    twin.end_signal();
    assert_eq!(twin.record(), record);
    twin.guest_write(0xA8, 0x1, 1).unwrap();
    assert_eq!(twin.record(), Record { busy: 1, ..record });
    twin.end_signal();
    assert_eq!(twin.record(), foreign(0x00, 0));
}

// ---- while busy

#[test]
fn reads_are_ones() {
    for busy in BUSY {
        for byte in [0x00, 0xFF] {
            let twin = Twin::of_record(&foreign(byte, busy));
            for offset in (0..256).step_by(4) {
                for lanes in 0..16 {
                    assert_eq!(twin.guest_read(offset, lanes), Ok(u32::MAX));
                }
            }
            assert_eq!(twin.bytes(), [0xFF; 256]);
        }
    }
    let twin = fresh_but_busy();
    assert_eq!(twin.guest_read(0x00, 0x5), Ok(u32::MAX));
    assert_eq!(twin.guest_read(0x34, 0xE), Ok(u32::MAX));
    assert_eq!(twin.guest_read(0xA8, 0x1), Ok(u32::MAX));
    assert_eq!(twin.guest_read(0xA8, 0x0), Ok(u32::MAX));
}

#[test]
fn port_reads_are_ones() {
    for busy in BUSY {
        for offset in (0..256).step_by(4) {
            let mut twin = Twin::of_record(&foreign(0x00, busy));
            twin.port_write(0xCF8, 4, latch(offset)).unwrap();
            for (port, width, value) in [
                (0xCFC, 1, 0x0000_00FF),
                (0xCFD, 1, 0x0000_00FF),
                (0xCFE, 1, 0x0000_00FF),
                (0xCFF, 1, 0x0000_00FF),
                (0xCFC, 2, 0x0000_FFFF),
                (0xCFD, 2, 0x0000_FFFF),
                (0xCFE, 2, 0x0000_FFFF),
                (0xCFC, 4, 0xFFFF_FFFF),
            ] {
                assert_eq!(twin.port_read(port, width), Ok(value));
            }
        }
    }
}

#[test]
fn writes_are_dropped() {
    for busy in BUSY {
        for byte in [0x00, 0xFF] {
            let before = foreign(byte, busy);
            let mut twin = Twin::of_record(&before);
            for offset in (0..256).step_by(4) {
                for lanes in 0..16 {
                    for value in [0, 1, u32::MAX, 0x0606_0606] {
                        assert_eq!(twin.guest_write(offset, lanes, value), Ok(()));
                    }
                }
            }
            assert_eq!(twin.record(), before);
        }
    }
}

#[test]
fn port_writes_are_dropped() {
    for busy in BUSY {
        for offset in (0..256).step_by(4) {
            let before = Record {
                latch: latch(offset),
                ..foreign(0x00, busy)
            };
            let mut twin = Twin::of_record(&before);
            for (port, width) in [(0xCFC, 1), (0xCFD, 1), (0xCFE, 2), (0xCFF, 1), (0xCFC, 4)] {
                assert_eq!(twin.port_write(port, width, u32::MAX), Ok(()));
            }
            assert_eq!(twin.record(), before);
        }
    }
}

#[test]
fn a_dropped_write_does_not_close() {
    let mut twin = fresh_but_busy();
    twin.guest_write(0x2C, 0xF, 0x1111_1111).unwrap();
    twin.guest_write(0xE8, 0xF, 0x0000_FFFF).unwrap();
    twin.end_signal();
    assert_eq!(twin, Twin::fresh());
    twin.guest_write(0x2C, 0xF, 0x2222_2222).unwrap();
    twin.guest_write(0xE8, 0xF, 0x0000_8000).unwrap();
    assert_eq!(twin.guest_read(0x2C, 0xF), Ok(0x2222_2222));
    assert_eq!(twin.guest_read(0xE8, 0xF), Ok(0x0000_8000));
}

#[test]
fn dropped_writes_leave_size_power_and_list() {
    let mut twin = fresh_but_busy();
    twin.guest_write(0x60, 0xF, 0x00F6_FFFF).unwrap();
    twin.guest_write(0xD4, 0x1, 3).unwrap();
    twin.guest_write(0x7C, 0x8, 0x0100_0000).unwrap();
    twin.end_signal();
    assert_eq!(twin.guest_read(0x60, 0xF), Ok(0x0002_0000));
    assert_eq!(twin.guest_read(0xD4, 0xF), Ok(0));
    assert_eq!(twin.guest_read(0x34, 0xF), Ok(0x90));
}

#[test]
fn nothing_is_claimed() {
    let mut twin = Twin::fresh();
    twin.guest_write(0x04, 0x1, 3).unwrap();
    twin.guest_write(0x10, 0xF, 0xE000_0000).unwrap();
    twin.guest_write(0x18, 0xF, 0xC000_0000).unwrap();
    twin.guest_write(0x20, 0xF, 0x0000_E000).unwrap();
    assert_eq!(twin.claim_memory(0xE000_0004), Claim::Translation(4));
    assert_eq!(twin.claim_memory(0xC000_0008), Claim::Aperture(8));
    assert_eq!(twin.claim_port(0xE001), Claim::Io(1));
    let up = twin.record();
    for busy in BUSY {
        let twin = Twin::of_record(&Record { busy, ..up });
        for address in [0xE000_0004, 0xC000_0008, 0, u64::MAX] {
            assert_eq!(twin.claim_memory(address), Claim::None);
        }
        for port in [0xE001, 0, 0xFFFF] {
            assert_eq!(twin.claim_port(port), Claim::None);
        }
    }
    // The windows go with their F bits at the end.
    twin.guest_write(0xA8, 0x1, 1).unwrap();
    twin.end_signal();
    assert_eq!(twin.claim_memory(0xE000_0004), Claim::None);
    twin.guest_write(0x04, 0x1, 3).unwrap();
    assert_eq!(twin.claim_memory(0xE000_0004), Claim::None);
    assert_eq!(twin.claim_memory(4), Claim::Translation(4));
    assert_eq!(twin.claim_port(1), Claim::Io(1));
}

#[test]
fn host_updates_work() {
    for busy in BUSY {
        let before = foreign(0x00, busy);
        let mut twin = Twin::of_record(&before);
        let mut wanted = before;
        assert_eq!(twin.host_update(0x02, 0xF0, 0xAF), Ok(()));
        wanted.bytes[0x02] = 0xA0;
        assert_eq!(twin.host_update(0x63, 0x01, 0xFF), Ok(()));
        wanted.bytes[0x63] = 0x01;
        assert_eq!(twin.host_update(0xA8, 0x00, 0xFF), Ok(()));
        assert_eq!(twin.host_update(0xA8, 0x01, 0xFF), Err(Refusal::NotHost));
        assert_eq!(twin.host_update(0x04, 0x01, 0xFF), Err(Refusal::NotHost));
        assert_eq!(twin.host_update(0x100, 0x00, 0xFF), Err(Refusal::Offset));
        assert_eq!(twin.record(), wanted);
        twin.end_signal();
        assert_eq!(twin.record(), Record { busy: 0, ..wanted });
        assert_eq!(twin.guest_read(0x00, 0x4), Ok(0xFFA0_FFFF));
    }
}

#[test]
fn the_latch_works() {
    for busy in BUSY {
        let before = foreign(0x00, busy);
        let mut twin = Twin::of_record(&before);
        assert_eq!(twin.port_read(0xCF8, 4), Ok(0x8000_1000));
        assert_eq!(twin.port_write(0xCF8, 4, u32::MAX), Ok(()));
        assert_eq!(twin.port_read(0xCF8, 4), Ok(0x80FF_FFFC));
        assert_eq!(
            twin.record(),
            Record {
                latch: 0x80FF_FFFC,
                ..before
            }
        );
        twin.end_signal();
        assert_eq!(twin.port_read(0xCF8, 4), Ok(0x80FF_FFFC));
    }
}

#[test]
fn refusals_come_first() {
    for busy in BUSY {
        let before = foreign(0x00, busy);
        let mut twin = Twin::of_record(&before);
        for (offset, lanes, refusal) in [
            (0x01, 0xF, Refusal::Offset),
            (0x100, 0xF, Refusal::Offset),
            (0x102, 0x10, Refusal::Offset),
            (0xA8, 0x10, Refusal::Lanes),
        ] {
            assert_eq!(twin.guest_read(offset, lanes), Err(refusal));
            assert_eq!(twin.guest_write(offset, lanes, 1), Err(refusal));
        }
        for (port, width, refusal) in [
            (0xCFC, 3, Refusal::Width),
            (0xCF8, 0, Refusal::Width),
            (0xCF8, 2, Refusal::NotOurs),
            (0xCFD, 4, Refusal::NotOurs),
            (0xD00, 1, Refusal::NotOurs),
        ] {
            assert_eq!(twin.port_read(port, width), Err(refusal));
            assert_eq!(twin.port_write(port, width, 1), Err(refusal));
        }
        assert_eq!(twin.record(), before);
        for (latch, refusal) in [
            (0x0000_1000, Refusal::NotOurs),
            (0x8001_1000, Refusal::OtherFunction),
            (0x8000_1800, Refusal::OtherFunction),
            (0x8000_1100, Refusal::OtherFunction),
        ] {
            twin.port_write(0xCF8, 4, latch).unwrap();
            assert_eq!(twin.port_read(0xCFC, 4), Err(refusal));
            assert_eq!(twin.port_write(0xCFC, 4, 1), Err(refusal));
            assert_eq!(twin.record(), Record { latch, ..before });
        }
    }
}

#[test]
fn walks_go_over_ones() {
    // The pointer at 34h is FF, taken as FC; ID and next pointer there are FF.
    let mut twin = fresh_but_busy();
    for wanted in 0..0xFF {
        assert_eq!(twin.walk(wanted), Ok(Walk::Endless { count: 48 }));
    }
    let at_the_end = Walk::Found {
        offset: 0xFC,
        count: 1,
    };
    assert_eq!(twin.walk(0xFF), Ok(at_the_end));
    twin.end_signal();
    assert_eq!(twin.walk(0xFF), Ok(Walk::Absent { count: 3 }));
}

#[test]
fn a_platform_reset_ends_it() {
    for busy in BUSY {
        let mut twin = Twin::of_record(&foreign(0xFF, busy));
        twin.platform_reset();
        assert_eq!(twin, Twin::fresh());
        assert_eq!(twin.record().busy, 0);
        assert_eq!(twin.guest_read(0x00, 0xF), Ok(0x01528086));
    }
}

#[test]
fn the_busy_byte_through_everything() {
    for busy in BUSY {
        let mut twin = Twin::of_record(&foreign(0x00, busy));
        twin.guest_write(0xA8, 0xF, 1).unwrap();
        twin.guest_write(0xFC, 0xF, u32::MAX).unwrap();
        twin.host_update(0x08, 0xFF, 0x12).unwrap();
        twin.port_write(0xCF8, 4, latch(0xA8)).unwrap();
        twin.port_write(0xCFC, 4, 1).unwrap();
        assert_eq!(twin.record().busy, busy);
        assert!(twin.is_busy());
        twin.end_signal();
        assert_eq!(twin.record().busy, 0);
        assert!(!twin.is_busy());
        twin.guest_write(0xA8, 0x1, 1).unwrap();
        assert_eq!(twin.record().busy, 1);
    }
}

#[test]
fn records_keep_the_busy_byte() {
    for busy in 0..=255 {
        let record = foreign(0xA5, busy);
        let twin = Twin::of_record(&record);
        assert_eq!(twin.record(), record);
        assert_eq!(twin.is_busy(), busy != 0);
    }
    assert_eq!(Twin::fresh().record().busy, 0);
}

// ---- sessions

#[test]
fn a_session_of_the_player() {
    let rows = [
        ("W 04 1 00000007", "OK"),
        ("W 3C 1 000000AB", "OK"),
        ("W A8 1 00000001", "OK"),
        ("R 04 F", "OK FFFFFFFF"),
        ("R A8 1", "OK FFFFFFFF"),
        ("R 04 A", "OK FFFFFFFF"),
        ("R 04 0", "OK FFFFFFFF"),
        ("R 05 F", "NO 5"),
        ("W 2C 3 00001234", "OK"),
        ("W 3C 1 00000055", "OK"),
        ("W A8 1 00000001", "OK"),
        ("W A9 1 00000001", "NO 5"),
        ("H 08 FF 09", "OK"),
        ("H 04 01 00", "NO 7"),
        ("E ", "NO 9"),
        ("e", "NO 9"),
        ("R 08 1", "OK FFFFFFFF"),
        ("E", "OK"),
        ("R A8 1", "OK FFFFFF00"),
        ("R A8 0", "OK FFFFFFFF"),
        ("R A8 F", "OK 00000000"),
        ("R 04 F", "OK 00900000"),
        ("R 3C F", "OK 000001AB"),
        ("R 08 F", "OK 03000009"),
        ("R 2C F", "OK 00000000"),
        ("W 2C 3 0000BEEF", "OK"),
        ("W 2C F 12345678", "OK"),
        ("R 2C F", "OK 1234BEEF"),
        ("W 04 1 00000004", "OK"),
        ("E", "OK"),
        ("R 04 F", "OK 00900004"),
        ("W A8 F FFFFFFFF", "OK"),
        ("R 00 F", "OK FFFFFFFF"),
        ("P", "OK"),
        ("R 00 F", "OK 01528086"),
        ("R 2C F", "OK 00000000"),
        ("W 98 3 00001234", "OK"),
        ("E", "OK"),
        ("R 98 F", "OK 00001234"),
    ];
    check_twin(Player, &rows);
    check_twin(Console, &rows);
}

#[test]
fn a_session_of_the_console() {
    let rows = [
        ("W 04 1 00000003", "OK"),
        ("A 0000000000000000", "OK TRANSLATION 00000000"),
        ("N 0000", "OK IO 00000000"),
        ("O 0CF8 4 800010A8", "OK"),
        ("O 0CFC 1 FFFFFF01", "OK"),
        ("I 0CFC 4", "OK FFFFFFFF"),
        ("I 0CFD 2", "OK 0000FFFF"),
        ("I 0CFF 1", "OK 000000FF"),
        ("R A8 8", "OK FFFFFFFF"),
        ("I 0CF8 4", "OK 800010A8"),
        ("O 0CF8 4 8000102D", "OK"),
        ("I 0CF8 4", "OK 8000102C"),
        ("O 0CFC 4 12345678", "OK"),
        ("O 0CFC 3 12345678", "NO 2"),
        ("I 0CFC 3", "NO 2"),
        ("I 0CFD 4", "NO 3"),
        ("A 0000000000000000", "OK NONE"),
        ("N 0000", "OK NONE"),
        ("K 13", "NO 11 30"),
        ("K FF", "OK FOUND FC 01"),
        ("S F000000C FFFFFFFF", "OK MEM64 1C"),
        ("O 0CF8 4 80001800", "OK"),
        ("I 0CFC 4", "NO 4"),
        ("O 0CFC 4 00000000", "NO 4"),
        ("O 0CF8 4 0000102C", "OK"),
        ("I 0CFC 4", "NO 3"),
        ("E", "OK"),
        ("I 0CF8 4", "OK 0000102C"),
        ("K 13", "OK FOUND A4 03"),
        ("A 0000000000000000", "OK NONE"),
        ("O 0CF8 4 8000102C", "OK"),
        ("I 0CFC 4", "OK 00000000"),
        ("O 0CFC 2 0000ABCD", "OK"),
        ("I 0CFC 4", "OK 0000ABCD"),
        ("W 04 1 00000003", "OK"),
        ("E", "OK"),
        ("A 0000000000000000", "OK TRANSLATION 00000000"),
    ];
    check_twin(Console, &rows);
}
