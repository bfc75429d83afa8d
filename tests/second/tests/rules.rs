//! The paper's rules beyond its examples.

mod common {
    pub mod lanes;
}

use common::lanes::UNDRIVEN;
use second::map::{self, Class, BITS};
use second::probe::{probe, Kind, Range};
use second::refusal::Refusal;
use second::twin::{Claim, Twin};
use second::walk::{walk, Walk};

/// A fresh twin after some full writes.
fn after(writes: &[(u32, u32, u32)]) -> Twin {
    let mut twin = Twin::fresh();
    for (offset, lanes, value) in writes {
        twin.guest_write(*offset, *lanes, *value).unwrap();
    }
    twin
}

/// Performs a function reset: a write to AFCTL and the end signal.
fn reset(twin: &mut Twin) {
    twin.guest_write(0xA8, 0x1, 1).unwrap();
    twin.end_signal();
}

/// A dword as a guest reads it.
fn dword(twin: &Twin, offset: u32) -> u32 {
    twin.guest_read(offset, 0xF).unwrap()
}

/// The bits of a dword that are of such classes.
fn mask(offset: usize, such: impl Fn(Class) -> bool) -> u32 {
    (0..32)
        .filter(|place| such(map::paper().class(offset * 8 + place)))
        .fold(0, |mask, place| mask | 1 << place)
}

#[test]
fn fresh_dwords() {
    let wanted = [
        (0x00, 0x01528086),
        (0x04, 0x00900000),
        (0x08, 0x03000000),
        (0x10, 0x00000004),
        (0x18, 0x0000000C),
        (0x20, 0x00000001),
        (0x34, 0x00000090),
        (0x3C, 0x00000100),
        (0x40, 0x010C0009),
        (0x50, 0x00000028),
        (0x54, 0x0000209F),
        (0x60, 0x00020000),
        (0x90, 0x0000D005),
        (0xA4, 0x03060013),
        (0xD0, 0x0022A401),
    ];
    let twin = Twin::fresh();
    for offset in (0..256).step_by(4) {
        let value = wanted
            .iter()
            .find(|(at, _)| *at == offset)
            .map_or(0, |row| row.1);
        assert_eq!(dword(&twin, offset), value, "at {offset:02X}");
    }
}

#[test]
fn what_ones_leave_behind() {
    let changed = [
        (0x04, 0x00900407),
        (0x10, 0xFFC00004),
        (0x14, 0xFFFFFFFF),
        (0x18, 0xF000000C),
        (0x1C, 0xFFFFFFFF),
        (0x20, 0x0000FFC1),
        (0x2C, 0xFFFFFFFF),
        (0x3C, 0x000001FF),
        (0x60, 0x00F6FFFF),
        (0x7C, 0x01000000),
        (0x90, 0x0071D005),
        (0x94, 0xFFFFFFFC),
        (0x98, 0x0000FFFF),
        (0xA8, 0xFFFFFFFF), // busy
        (0xD4, 0x00000003),
        (0xE0, 0x0000FFFF),
        (0xE4, 0xFFFFFFFF),
        (0xE8, 0x0000FFFF),
        (0xFC, 0xFFFFFFFF),
    ];
    for offset in (0..256).step_by(4) {
        let twin = after(&[(offset, 0xF, u32::MAX)]);
        let fresh = dword(&Twin::fresh(), offset);
        let value = changed
            .iter()
            .find(|(at, _)| *at == offset)
            .map_or(fresh, |row| row.1);
        assert_eq!(dword(&twin, offset), value, "at {offset:02X}");
    }
}

#[test]
fn host_masks() {
    let wanted = [
        (0x00, 0xFFFF0000),
        (0x04, 0x00080000),
        (0x08, 0xFFFF00FF),
        (0x44, 0xFFFFFFFF),
        (0x48, 0xFFFFFFFF),
        (0x50, 0x0000FFFF),
        (0x54, 0xFFFFFFFF),
        (0x5C, 0xFFFFFFFF),
        (0x60, 0x01000000),
    ];
    for offset in (0..256).step_by(4) {
        let value = wanted
            .iter()
            .find(|(at, _)| *at == offset)
            .map_or(0, |row| row.1);
        let host = mask(offset, |class| class == Class::Host);
        assert_eq!(host, value, "at {offset:02X}");
    }
}

#[test]
fn host_bits_are_not_for_guests() {
    for bit in (0..BITS).filter(|bit| map::paper().class(*bit) == Class::Host) {
        let (at, place) = (bit as u32 / 8, bit as u32 % 32);
        let mut twin = after(&[(at & !3, 0xF, u32::MAX)]);
        let before = dword(&Twin::fresh(), at & !3);
        assert_eq!((dword(&twin, at & !3) ^ before) >> place & 1, 0);
        let flipped = !(before >> (place & !7)) as u8;
        assert_eq!(twin.host_update(at, 1 << (bit % 8), flipped), Ok(()));
        assert_eq!((dword(&twin, at & !3) ^ before) >> place & 1, 1);
    }
}

#[test]
fn host_update_takes_masked_bits_alone() {
    let mut twin = Twin::fresh();
    assert_eq!(twin.host_update(0x02, 0xF0, 0xAF), Ok(()));
    assert_eq!(dword(&twin, 0x00), 0x01A28086);
    assert_eq!(twin.host_update(0x00, 0x00, 0xFF), Ok(()));
    assert_eq!(twin.host_update(0x06, 0x18, 0xFF), Err(Refusal::NotHost));
    assert_eq!(twin.host_update(0x09, 0x01, 0x00), Err(Refusal::NotHost));
    assert_eq!(twin.host_update(0x100, 0x00, 0x00), Err(Refusal::Offset));
    assert_eq!(twin.host_update(0x100, 0xFF, 0x00), Err(Refusal::Offset));
    assert_eq!(dword(&twin, 0x04), 0x00900000);
}

#[test]
fn lanes() {
    let mut twin = Twin::fresh();
    for (lanes, undriven) in (0..).zip(UNDRIVEN) {
        assert_eq!(twin.guest_read(0x00, lanes), Ok(0x01528086 | undriven));
        let fresh = after(&[(0xFC, lanes, u32::MAX)]);
        assert_eq!(dword(&fresh, 0xFC), !undriven);
    }
    let before = twin.clone();
    assert_eq!(twin.guest_write(0x2C, 0, u32::MAX), Ok(()));
    assert_eq!(twin, before);
}

#[test]
fn direct_refusals_in_order() {
    let mut twin = Twin::fresh();
    let before = twin.clone();
    for (offset, lanes, refusal) in [
        (0x01, 0x0, Refusal::Offset),
        (0x100, 0xF, Refusal::Offset),
        (0xFFFF_FFFC, 0x0, Refusal::Offset),
        (0x102, 0x10, Refusal::Offset),
        (0xFC, 0x10, Refusal::Lanes),
        (0x00, 0xFFFF_FFFF, Refusal::Lanes),
    ] {
        assert_eq!(twin.guest_read(offset, lanes), Err(refusal));
        assert_eq!(twin.guest_write(offset, lanes, u32::MAX), Err(refusal));
    }
    assert_eq!(twin, before);
}

#[test]
fn half_a_write_once_field_closes_the_whole() {
    let twin = after(&[(0x2C, 0x2, 0x1111_1111), (0x2C, 0xF, 0x2222_2222)]);
    assert_eq!(dword(&twin, 0x2C), 0x2222_1100);
    let twin = after(&[(0x2C, 0x8, 0), (0x2C, 0xF, 0x2222_2222)]);
    assert_eq!(dword(&twin, 0x2C), 0x0000_2222);
}

#[test]
fn swsci_low_byte_does_not_close_bit_15() {
    let twin = after(&[(0xE8, 0xD, 0), (0xE8, 0xF, 0xFFFF_8000)]);
    assert_eq!(dword(&twin, 0xE8), 0x8000);
    let twin = after(&[(0xE8, 0xF, 0x8000), (0xE8, 0xF, 0x7FFF)]);
    assert_eq!(dword(&twin, 0xE8), 0xFFFF);
}

#[test]
fn only_a_platform_reset_reopens() {
    let mut twin = after(&[(0x2C, 0xF, 1), (0xE8, 0xF, 0)]);
    reset(&mut twin);
    twin.guest_write(0x2C, 0xF, 2).unwrap();
    twin.guest_write(0xE8, 0xF, 0x8000).unwrap();
    assert_eq!(dword(&twin, 0x2C), 1);
    assert_eq!(dword(&twin, 0xE8), 0);
    twin.platform_reset();
    assert_eq!(twin, Twin::fresh());
    twin.guest_write(0x2C, 0xF, 2).unwrap();
    assert_eq!(dword(&twin, 0x2C), 2);
}

#[test]
fn size_codes_take_aperture_bits() {
    let ones = (0x18, 0xF, u32::MAX);
    for (msac, gmadr) in [(0x0, 0xF800_000C), (0x2, 0xF000_000C), (0x6, 0xE000_000C)] {
        let code = (0x60, 0x4, msac << 16);
        assert_eq!(dword(&after(&[code, ones]), 0x18), gmadr);
        assert_eq!(dword(&after(&[(0x60, 0x4, 0), ones, code]), 0x18), gmadr);
        let back = after(&[(0x60, 0x4, 0), ones, code, (0x60, 0x4, 0)]);
        assert_eq!(dword(&back, 0x18), gmadr);
    }
}

#[test]
fn size_code_without_its_lane_is_not_written() {
    let twin = after(&[(0x60, 0x4, 0), (0x18, 0xF, u32::MAX), (0x60, 0xB, u32::MAX)]);
    assert_eq!(dword(&twin, 0x18), 0xF800_000C);
    assert_eq!(dword(&twin, 0x60), 0x0000_FFFF);
}

#[test]
fn size_code_10_keeps_every_old_code() {
    for msac in [0x0, 0x2, 0x6] {
        let twin = after(&[(0x60, 0x4, msac << 16), (0x60, 0x4, 0x00AD_0000)]);
        assert_eq!(dword(&twin, 0x60), (0xA0 | msac) << 16);
    }
}

#[test]
fn power_codes() {
    for old in [0, 3] {
        for (new, kept) in [(0, 0), (1, old), (2, old), (3, 3)] {
            let twin = after(&[(0xD4, 0x1, old), (0xD4, 0x3, 0xFFFC | new)]);
            assert_eq!(dword(&twin, 0xD4), kept);
        }
    }
}

#[test]
fn function_reset() {
    let mut twin = Twin::fresh();
    for offset in (0..256).step_by(4).filter(|offset| *offset != 0xA8) {
        twin.guest_write(offset, 0xF, u32::MAX).unwrap();
    }
    twin.host_update(0x02, 0xFF, 0xFF).unwrap();
    twin.guest_write(0xA8, 0xE, u32::MAX).unwrap();
    twin.guest_write(0xA8, 0xF, 0xFFFF_FFFE).unwrap();
    assert_eq!(dword(&twin, 0x04), 0x00900407);
    reset(&mut twin);
    let kept = [
        (0x00, 0x01FF8086),
        (0x2C, 0xFFFFFFFF),
        (0x34, 0x000000D0),
        (0x3C, 0x000001FF),
        (0x60, 0x00F60000),
        (0x7C, 0x01000000),
        (0xE0, 0x0000FFFF),
        (0xE4, 0xFFFFFFFF),
        (0xE8, 0x0000FFFF),
        (0xFC, 0xFFFFFFFF),
    ];
    for offset in (0..256).step_by(4) {
        let fresh = dword(&Twin::fresh(), offset);
        let value = kept
            .iter()
            .find(|(at, _)| *at == offset)
            .map_or(fresh, |row| row.1);
        assert_eq!(dword(&twin, offset), value, "at {offset:02X}");
    }
}

#[test]
fn function_reset_at_128_mb_clears_the_aperture_bits() {
    let mut twin = after(&[(0x60, 0x4, 0), (0x18, 0xF, u32::MAX)]);
    assert_eq!(dword(&twin, 0x18), 0xF800_000C);
    reset(&mut twin);
    assert_eq!(dword(&twin, 0x18), 0x0000_000C);
    assert_eq!(dword(&twin, 0x60), 0);
}

#[test]
fn latch_stores_and_reads_back() {
    let mut twin = Twin::fresh();
    twin.port_write(0xCF8, 4, u32::MAX).unwrap();
    assert_eq!(twin.port_read(0xCF8, 4), Ok(0x80FF_FFFC));
    twin.port_write(0xCF8, 4, 0x8000_10A9).unwrap();
    twin.port_write(0xCFC, 1, 1).unwrap();
    assert_eq!(twin.port_read(0xCF8, 4), Ok(0x8000_10A8));
    twin.end_signal();
    assert_eq!(twin.port_read(0xCF8, 4), Ok(0x8000_10A8));
    twin.platform_reset();
    assert_eq!(twin.port_read(0xCF8, 4), Ok(0));
}

#[test]
fn port_refusals_in_order() {
    let mut twin = Twin::fresh();
    for width in [0, 3, 5, 8, 15, u32::MAX] {
        assert_eq!(twin.port_read(0xCF8, width), Err(Refusal::Width));
        assert_eq!(twin.port_write(0x1234, width, 0), Err(Refusal::Width));
    }
    assert_eq!(twin.port_read(0xCFC, 4), Err(Refusal::NotOurs));
    for latch in [0x8001_1000, 0x8000_1800, 0x8000_1100, 0x8000_0000] {
        twin.port_write(0xCF8, 4, latch).unwrap();
        assert_eq!(twin.port_read(0xCFC, 4), Err(Refusal::OtherFunction));
        assert_eq!(twin.port_write(0xCFF, 1, 0), Err(Refusal::OtherFunction));
        assert_eq!(twin.port_read(0xCFF, 2), Err(Refusal::NotOurs));
    }
    twin.port_write(0xCF8, 4, 0x8000_1000).unwrap();
    let before = twin.clone();
    for (port, width) in [
        (0xCF8, 1),
        (0xCF8, 2),
        (0xCFA, 2),
        (0xCFB, 1),
        (0xCFB, 4),
        (0xCFD, 4),
        (0xD00, 1),
        (0xFFFF, 4),
        (0, 1),
    ] {
        assert_eq!(twin.port_read(port, width), Err(Refusal::NotOurs));
        assert_eq!(
            twin.port_write(port, width, u32::MAX),
            Err(Refusal::NotOurs)
        );
    }
    assert_eq!(twin, before);
}

#[test]
fn port_data_of_every_width() {
    let mut twin = Twin::fresh();
    twin.port_write(0xCF8, 4, 0x8000_10FC).unwrap();
    for (port, width, value, whole) in [
        (0xCFC, 4, 0x4433_2211, 0x4433_2211),
        (0xCFD, 2, 0xFFFF_BBAA, 0x44BB_AA11),
        (0xCFF, 1, 0xFFFF_FF99, 0x99BB_AA11),
        (0xCFE, 2, 0xFFFF_1234, 0x1234_AA11),
        (0xCFC, 1, 0xFFFF_FF00, 0x1234_AA00),
    ] {
        twin.port_write(port, width, value).unwrap();
        assert_eq!(dword(&twin, 0xFC), whole);
    }
    assert_eq!(twin.port_read(0xCFD, 2), Ok(0x34AA));
    assert_eq!(twin.port_read(0xCFF, 1), Ok(0x12));
}

#[test]
fn memory_claims() {
    let bases = [
        (0x10, 0xF, 0xE000_0000),
        (0x14, 0xF, 1),
        (0x18, 0xF, 0xF000_0000),
        (0x1C, 0xF, u32::MAX),
    ];
    let mut twin = after(&bases);
    assert_eq!(twin.claim_memory(0x1_E000_0000), Claim::None);
    twin.guest_write(0x04, 0x1, 2).unwrap();
    assert_eq!(twin.claim_memory(0x1_E000_0000), Claim::Translation(0));
    assert_eq!(
        twin.claim_memory(0x1_E03F_FFFF),
        Claim::Translation(0x3F_FFFF)
    );
    assert_eq!(twin.claim_memory(0x1_E040_0000), Claim::None);
    assert_eq!(twin.claim_memory(0x1_DFFF_FFFF), Claim::None);
    assert_eq!(twin.claim_memory(0xE000_0000), Claim::None);
    assert_eq!(twin.claim_memory(u64::MAX), Claim::Aperture(0x0FFF_FFFF));
    assert_eq!(twin.claim_memory(0xFFFF_FFFF_F000_0000), Claim::Aperture(0));
    assert_eq!(twin.claim_memory(0xFFFF_FFFF_EFFF_FFFF), Claim::None);
    assert_eq!(twin.claim_memory(0), Claim::None);
    twin.guest_write(0xD4, 0x1, 3).unwrap();
    assert_eq!(twin.claim_memory(u64::MAX), Claim::None);
}

#[test]
fn both_windows_at_the_same_base() {
    let twin = after(&[(0x04, 0x1, 2)]);
    assert_eq!(twin.claim_memory(0), Claim::Translation(0));
    assert_eq!(twin.claim_memory(0x40_0000), Claim::Aperture(0x40_0000));
    assert_eq!(twin.claim_memory(0x1000_0000), Claim::None);
    assert_eq!(twin.claim_port(0), Claim::None);
}

#[test]
fn aperture_sizes() {
    for (msac, size) in [(0x0, 128 << 20), (0x2, 256 << 20), (0x6, 512u64 << 20)] {
        let twin = after(&[(0x04, 0x1, 2), (0x60, 0x4, msac << 16), (0x1C, 0xF, 1)]);
        let base = 1 << 32;
        assert_eq!(
            twin.claim_memory(base + size - 1),
            Claim::Aperture(size as u32 - 1)
        );
        assert_eq!(twin.claim_memory(base + size), Claim::None);
    }
}

#[test]
fn port_claims() {
    let mut twin = after(&[(0x20, 0xF, 0xFFFF_E000), (0x04, 0x1, 2)]);
    assert_eq!(twin.claim_port(0xE000), Claim::None);
    twin.guest_write(0x04, 0x1, 1).unwrap();
    assert_eq!(twin.claim_port(0xE000), Claim::Io(0));
    assert_eq!(twin.claim_port(0xE03F), Claim::Io(0x3F));
    assert_eq!(twin.claim_port(0xE040), Claim::None);
    assert_eq!(twin.claim_port(0xDFFF), Claim::None);
    twin.guest_write(0xD4, 0x1, 3).unwrap();
    assert_eq!(twin.claim_port(0xE000), Claim::None);
}

#[test]
fn probes() {
    let range = |kind, exponent| Ok(Range { kind, exponent });
    assert_eq!(probe(0x0000_FFC1, 0), range(Kind::Io, 6));
    assert_eq!(probe(0x0000_0007, 0), range(Kind::Io, 2));
    assert_eq!(probe(0x0000_0003, u32::MAX), Err(Refusal::NoRange));
    assert_eq!(probe(0x8000_0001, 0), range(Kind::Io, 31));
    assert_eq!(probe(0xFFFF_F000, 0), range(Kind::Mem32, 12));
    assert_eq!(probe(0x0000_0018, 0), range(Kind::Mem32, 4));
    assert_eq!(probe(0x0000_0008, u32::MAX), Err(Refusal::NoRange));
    assert_eq!(probe(0x0000_000C, 0x8000_0000), range(Kind::Mem64, 63));
    assert_eq!(probe(0x0000_0004, 1), range(Kind::Mem64, 32));
    assert_eq!(probe(0x0000_000C, 0), Err(Refusal::NoRange));
    for kind in [0x2, 0x6, 0xA, 0xE] {
        assert_eq!(probe(0xFFFF_FFF0 | kind, u32::MAX), Err(Refusal::NoRange));
    }
}

/// 256 bytes with a list of such pointers, the first at 34h.
fn list(status: u8, pointers: &[(usize, u8)]) -> [u8; 256] {
    let mut bytes = [0; 256];
    bytes[0x06] = status;
    for (at, pointer) in pointers {
        bytes[*at] = *pointer;
    }
    bytes
}

#[test]
fn walk_lengths() {
    for length in [0, 1, 255, 257, 512] {
        assert_eq!(walk(&vec![0; length], 0), Err(Refusal::Length));
    }
    assert_eq!(walk(&[0; 256], 0), Ok(Walk::Absent { count: 0 }));
    assert_eq!(
        walk(&list(0xEF, &[(0x34, 0x40)]), 0),
        Ok(Walk::Absent { count: 0 })
    );
}

#[test]
fn walk_pointers() {
    for pointer in 0..4 {
        assert_eq!(
            walk(&list(0x10, &[(0x34, pointer)]), 0),
            Ok(Walk::Absent { count: 0 })
        );
    }
    for pointer in 4..0x40 {
        assert_eq!(
            walk(&list(0x10, &[(0x34, pointer)]), 0),
            Ok(Walk::Pointer { count: 0 })
        );
    }
    for pointer in 0x40..=0xFF {
        let found = Walk::Found {
            offset: pointer & 0xFC,
            count: 1,
        };
        assert_eq!(walk(&list(0x10, &[(0x34, pointer)]), 0), Ok(found));
    }
    let bytes = list(0x10, &[(0x34, 0x43), (0x41, 0x81), (0x81, 0x3F)]);
    assert_eq!(walk(&bytes, 1), Ok(Walk::Pointer { count: 2 }));
}

/// A list of 48 items from 40h on, the last one pointing to `last`.
fn longest(last: u8) -> [u8; 256] {
    let mut bytes = list(0x10, &[(0x34, 0x40)]);
    for item in (0x40..0x100).step_by(4) {
        bytes[item + 1] = (item + 4) as u8;
    }
    bytes[0xFD] = last;
    bytes
}

#[test]
fn walk_ends() {
    assert_eq!(walk(&longest(0x00), 9), Ok(Walk::Absent { count: 48 }));
    assert_eq!(walk(&longest(0x03), 9), Ok(Walk::Absent { count: 48 }));
    assert_eq!(walk(&longest(0x20), 9), Ok(Walk::Pointer { count: 48 }));
    assert_eq!(walk(&longest(0x40), 9), Ok(Walk::Endless { count: 48 }));
    let mut bytes = longest(0x40);
    bytes[0xFC] = 9;
    assert_eq!(
        walk(&bytes, 9),
        Ok(Walk::Found {
            offset: 0xFC,
            count: 48
        })
    );
}

#[test]
fn walk_in_a_circle() {
    let bytes = list(0x10, &[(0x34, 0x40), (0x41, 0x40)]);
    assert_eq!(walk(&bytes, 9), Ok(Walk::Endless { count: 48 }));
}

#[test]
fn walk_after_capl() {
    let twin = after(&[(0x7C, 0x8, 0x0100_0000)]);
    assert_eq!(twin.walk(0x05), Ok(Walk::Absent { count: 2 }));
    assert_eq!(
        twin.walk(0x01),
        Ok(Walk::Found {
            offset: 0xD0,
            count: 1
        })
    );
    assert_eq!(
        twin.walk(0x13),
        Ok(Walk::Found {
            offset: 0xA4,
            count: 2
        })
    );
}
