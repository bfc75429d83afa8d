//! The paper's checked examples, its refusals, and the record's layout.

use std::mem::{align_of, size_of};

use twin::register::{ASSRREQ, DRAM_CYCLES, FAULT_REG, MBDSM, MTOUUD, MTOUUD_HIGH};
use twin::{probe, raw, walk, Claim, Kind, Range, Refusal, Registers, Twin, Walk};

/// A fresh twin after some writes, all of them accepted.
fn after(writes: &[(u32, u32, u32)]) -> Twin {
    let mut t = Twin::fresh();
    for (offset, lanes, value) in writes {
        t.write(*offset, *lanes, *value).unwrap();
    }
    t
}

/// Bytes of a record.
const SIZE: usize = 288;

/// All bytes of a record.
#[repr(C, align(4))]
#[derive(Clone, Copy, PartialEq, Eq, Debug)]
struct Lent([u8; SIZE]);

impl Lent {
    fn record(&mut self) -> *mut Twin {
        assert_eq!((size_of::<Lent>(), align_of::<Lent>()), (SIZE, 4));
        (self as *mut Lent).cast()
    }
}

#[test]
fn places() {
    let t = Twin::fresh();
    let from = |field: *const u8| field as usize - &t as *const Twin as usize;
    let dword_from = |field: *const u32| from(field.cast());
    assert_eq!(from(t.bytes.as_ptr()), 0);
    assert_eq!(dword_from(&t.latch), 256);
    assert_eq!(from(&t.closed.svid2), 260);
    assert_eq!(from(&t.closed.sid2), 261);
    assert_eq!(from(&t.closed.swsci15), 262);
    assert_eq!(from(&t.busy), 263);
    assert_eq!(dword_from(&t.window.fault), 264);
    assert_eq!(dword_from(&t.window.assrreq), 268);
    assert_eq!(dword_from(&t.window.mtouud), 272);
    assert_eq!(dword_from(&t.window.mtouud_high), 276);
    assert_eq!(dword_from(&t.window.mbdsm), 280);
    assert_eq!(dword_from(&t.window.cycles), 284);
}

#[test]
fn layout() {
    let mut lent = Lent([0xA5; SIZE]);
    let t = lent.record();
    // SAFETY: a whole record, aligned, used here alone.
    unsafe {
        raw::twin_platform_reset(t);
        raw::twin_do(t, 4, 0xCF8, 4, 0x80FEDCB8); // the latch
        raw::twin_write(t, 0x2C, 0x8, 0xAB000000); // SID2
        raw::twin_write(t, 0xFC, 0xF, 0x44332211); // ASLS
        raw::twin_do(t, 11, 0x0810C, 0xF, 0x00060006); // ASSRREQ
        raw::twin_do(t, 14, 0x1152, 0, 0); // FAULT_REG
        raw::twin_do(t, 15, 0xF0E0D0C0, 0, 0); // the sum
        raw::twin_do(t, 16, 0x108080, 0xFFF00001, 0x45600001); // MTOUUD
        raw::twin_do(t, 16, 0x108084, 0x7F, 0x71); // its high dword
        raw::twin_do(t, 16, 0x1080C0, 0xFFF00001, 0x9AB00000); // MBDSM
        raw::twin_write(t, 0xA8, 0x1, 0x00000001); // AFCTL
    }
    assert_eq!(lent.0[0x00..0x04], [0x86, 0x80, 0x52, 0x01]);
    assert_eq!(lent.0[0x2C..0x30], [0, 0, 0, 0xAB]);
    assert_eq!(lent.0[0xFC..0x100], [0x11, 0x22, 0x33, 0x44]);
    assert_eq!(lent.0[256..260], [0xB8, 0xDC, 0xFE, 0x80]);
    assert_eq!(lent.0[260..264], [0, 1, 0, 1]);
    assert_eq!(lent.0[264..268], [0x53, 0x11, 0, 0]);
    assert_eq!(lent.0[268..272], [0x06, 0, 0, 0]);
    assert_eq!(lent.0[272..276], [0x01, 0, 0x60, 0x45]);
    assert_eq!(lent.0[276..280], [0x71, 0, 0, 0]);
    assert_eq!(lent.0[280..284], [0, 0, 0xB0, 0x9A]);
    assert_eq!(lent.0[284..288], [0xC0, 0xD0, 0xE0, 0xF0]);
}

#[test]
fn reads_and_writes() {
    let all = u32::MAX;
    let rows: &[(&[(u32, u32, u32)], u32, u32, u32)] = &[
        (&[], 0x00, 0xF, 0x01528086),
        (&[(0x04, 0xF, all)], 0x04, 0xF, 0x00900407),
        (&[(0x10, 0xF, all)], 0x10, 0xF, 0xFFC00004),
        (&[(0x18, 0xF, all)], 0x18, 0xF, 0xF000000C),
        (
            &[(0x18, 0xF, all), (0x60, 0x4, 0x00060000)],
            0x18,
            0xF,
            0xE000000C,
        ),
        (&[(0x60, 0x4, 0x00F40000)], 0x60, 0x4, 0xFFF2FFFF),
        (&[(0x20, 0xF, all)], 0x20, 0xF, 0x0000FFC1),
        (&[(0x7C, 0x8, 0x01000000)], 0x34, 0xF, 0x000000D0),
        (&[(0xD4, 0x1, 1)], 0xD4, 0x1, 0xFFFFFF00),
        (&[(0xD4, 0x1, 1), (0xD4, 0x1, 3)], 0xD4, 0x1, 0xFFFFFF03),
        (&[(0xE8, 0x2, 0), (0xE8, 0xF, 0x8001)], 0xE8, 0xF, 1),
    ];
    for (writes, offset, lanes, value) in rows {
        assert_eq!(
            after(writes).read(*offset, *lanes),
            Ok(*value),
            "{writes:X?}"
        );
    }
}

#[test]
fn a_lock_holds_through_a_function_reset() {
    let mut t = after(&[(0x2C, 0x3, 0x1234), (0xA8, 0x1, 1)]);
    t.end_signal();
    assert_eq!(t.write(0x2C, 0x3, 0xFFFF), Ok(()));
    assert_eq!(t.read(0x2C, 0x3), Ok(0xFFFF1234));
}

/// A dword as it is read with these lanes: FF in those that aren't enabled.
fn in_lanes(dword: u32, lanes: u32) -> u32 {
    let mut bytes = dword.to_le_bytes();
    for (lane, byte) in bytes.iter_mut().enumerate() {
        if lanes >> lane & 1 == 0 {
            *byte = 0xFF;
        }
    }
    u32::from_le_bytes(bytes)
}

/// The same read through the door.
fn door_read(t: &Twin, offset: u32, lanes: u32) -> u64 {
    let mut copy = *t;
    // SAFETY: a whole record, aligned, used here alone.
    unsafe { raw::twin_do(&mut copy, 2, offset, lanes, 0) }
}

#[test]
fn lanes_that_are_not_enabled_read_as_ones() {
    let idle = after(&[(0xFC, 0xF, 0x44332211)]);
    let busy = Twin { busy: 1, ..idle };
    let dwords = [
        (0x00, 0x01528086),
        (0x04, 0x00900000),
        (0x0C, 0x00000000),
        (0x34, 0x00000090),
        (0xFC, 0x44332211),
    ];
    for (offset, dword) in dwords {
        for lanes in 0..16 {
            let wanted = in_lanes(dword, lanes);
            assert_eq!(idle.read(offset, lanes), Ok(wanted), "{offset:X} {lanes:X}");
            assert_eq!(door_read(&idle, offset, lanes), wanted.into());
            assert_eq!(busy.read(offset, lanes), Ok(0xFFFFFFFF));
            assert_eq!(door_read(&busy, offset, lanes), 0xFFFFFFFF);
        }
    }
    assert_eq!(idle.read(0xFC, 0x0), Ok(0xFFFFFFFF));
    assert_eq!(idle.read(0xFC, 0x2), Ok(0xFFFF22FF));
    assert_eq!(idle.read(0xFC, 0x9), Ok(0x44FFFF11));
}

#[test]
fn the_session_example() {
    let mut t = Twin::fresh();
    assert_eq!(t.write(0x2C, 0x3, 0x00001234), Ok(()));
    assert_eq!(t.write(0x2C, 0xF, 0xABCD5678), Ok(()));
    assert_eq!(t.read(0x2C, 0xF), Ok(0xABCD1234));
    assert_eq!(t.read(0x2D, 0xF), Err(Refusal::Offset));
    assert_eq!(t.write(0x04, 0x1, 0x00000407), Ok(()));
    assert_eq!(t.read(0x04, 0xF), Ok(0x00900007));
    t.platform_reset();
    assert_eq!(t, Twin::fresh());
}

#[test]
fn ports() {
    let mut t = Twin::fresh();
    assert_eq!(t.port_write(0xCF8, 4, 0x80001000), Ok(()));
    assert_eq!(t.port_read(0xCF8, 4), Ok(0x80001000));
    assert_eq!(t.port_read(0xCFE, 2), Ok(0x0152));
    assert_eq!(t.port_read(0xCFF, 2), Err(Refusal::NotOurs));
    assert_eq!(t.port_read(0xCFC, 3), Err(Refusal::Width));
    assert_eq!(t.port_write(0xCF8, 4, 0xFF000003), Ok(()));
    assert_eq!(t.latch, 0x80000000);
    assert_eq!(t.port_write(0xCFC, 1, 0), Err(Refusal::OtherFunction));
}

#[test]
fn port_reads_are_0_above_the_width() {
    let mut idle = after(&[(0xFC, 0xF, 0x44332211)]);
    idle.port_write(0xCF8, 4, 0x800010FC).unwrap();
    let busy = Twin { busy: 1, ..idle };
    let rows = [
        (0xCFC, 1, 0x11, 0xFF),
        (0xCFD, 1, 0x22, 0xFF),
        (0xCFE, 1, 0x33, 0xFF),
        (0xCFF, 1, 0x44, 0xFF),
        (0xCFC, 2, 0x2211, 0xFFFF),
        (0xCFD, 2, 0x3322, 0xFFFF),
        (0xCFE, 2, 0x4433, 0xFFFF),
        (0xCFC, 4, 0x44332211, 0xFFFFFFFF),
    ];
    for (port, width, value, ones) in rows {
        assert_eq!(idle.port_read(port, width), Ok(value));
        assert_eq!(busy.port_read(port, width), Ok(ones));
    }
}

#[test]
fn claims() {
    let mut t = after(&[
        (0x04, 0x1, 0x03),
        (0x10, 0xF, 0x00400000),
        (0x14, 0xF, 0x12),
        (0x18, 0xF, 0xF0000000),
        (0x1C, 0xF, 0xFFFFFFFF),
        (0x20, 0xF, 0xE040),
    ]);
    assert_eq!(
        t.claim_memory(0x12_007F_FFFF),
        Some(Claim::Translation(0x3FFFFF))
    );
    assert_eq!(t.claim_memory(0x12_0080_0000), None);
    assert_eq!(t.claim_memory(u64::MAX), Some(Claim::Aperture(0x0FFFFFFF)));
    assert_eq!(t.claim_port(0xE07F), Some(Claim::Io(0x3F)));
    assert_eq!(t.claim_port(0xE080), None);
    t.write(0xD4, 0x1, 3).unwrap();
    assert_eq!(t.claim_memory(u64::MAX), None);
}

#[test]
fn probes() {
    let range = |kind, exponent| Ok(Range { kind, exponent });
    assert_eq!(probe(0xF000000C, 0xFFFFFFFF), range(Kind::Memory64, 28));
    assert_eq!(probe(0x00000004, 0x00000100), range(Kind::Memory64, 40));
    assert_eq!(probe(0xFFFFFFF0, 0), range(Kind::Memory32, 4));
    assert_eq!(probe(0x0000FFC1, 0), range(Kind::Io, 6));
    assert_eq!(probe(0xFFFFFFF6, 0xFFFFFFFF), Err(Refusal::NoRange));
    assert_eq!(probe(0x0000000C, 0), Err(Refusal::NoRange));
}

#[test]
fn walks() {
    let mut t = Twin::fresh();
    let ended = |found, count| Walk { found, count };
    assert_eq!(t.walk(0x13), ended(Ok(Some(0xA4)), 3));
    assert_eq!(t.walk(0x10), ended(Ok(None), 3));
    t.write(0x7C, 0x8, 0x01000000).unwrap();
    assert_eq!(t.walk(0x05), ended(Ok(None), 2));

    let mut image = t.image();
    assert_eq!((image[0x34], t.bytes[0x34]), (0xD0, 0x90));
    assert_eq!(walk(&image, 0x13), ended(Ok(Some(0xA4)), 2));
    image[0xA5] = 0x3F;
    assert_eq!(walk(&image, 0x77), ended(Err(Refusal::Pointer), 2));
    image[0xA5] = 0xD0;
    assert_eq!(walk(&image, 0x77), ended(Err(Refusal::Endless), 48));
    image[0x06] = 0;
    assert_eq!(walk(&image, 0x13), ended(Ok(None), 0));
    for length in [0, 1, 255] {
        assert_eq!(walk(&image[..length], 0x13), ended(Err(Refusal::Length), 0));
    }
    assert_eq!(walk(&[0; 257], 0x13), ended(Err(Refusal::Length), 0));
}

/// A twin with windows, a closed field and a function reset that runs, with a
/// busy byte that a start leaves and with foreign ones.
fn busy_ones() -> [Twin; 3] {
    let window = FOREIGN;
    let t = after(&[
        (0x04, 0x1, 0x07),
        (0x10, 0xF, 0x00400000),
        (0x20, 0xF, 0xE040),
        (0x2C, 0x3, 0x1234),
        (0x3C, 0x1, 0x0B),
        (0xA8, 0x1, 0x01),
    ]);
    assert_eq!((t.busy, t.is_busy()), (1, true));
    [1, 7, 0xFF].map(|busy| Twin { busy, window, ..t })
}

#[test]
fn a_start_changes_the_busy_byte_alone() {
    for t in busy_ones() {
        let mut idle = Twin { busy: 0, ..t };
        assert_eq!(idle.write(0xA8, 0xF, 0xFFFFFFFF), Ok(()));
        assert_eq!(idle, Twin { busy: 1, ..t });
    }
    let idle = Twin::fresh();
    for (lanes, value) in [(0x0, 1), (0xE, 0xFFFFFFFF), (0x1, 0), (0xF, 0xFFFFFFFE)] {
        assert_eq!(after(&[(0xA8, lanes, value)]), idle);
    }
}

#[test]
fn an_end_returns_the_f_bits_and_no_others() {
    for mut t in busy_ones() {
        t.port_write(0xCF8, 4, 0x80001004).unwrap();
        t.bytes[0xA8] = 0x81; // of foreign making
        let before = t;
        t.end_signal();
        assert!(!t.is_busy());
        let mut wanted = Twin { busy: 0, ..before };
        for (at, byte) in [(0x04, 0), (0x12, 0), (0x20, 0x01), (0x21, 0), (0xA8, 0x80)] {
            wanted.bytes[at] = byte;
        }
        assert_eq!(t, wanted);
    }
    let mut idle = after(&[(0x04, 0x1, 0x07)]);
    let before = idle;
    idle.end_signal();
    assert_eq!(idle, before);
}

#[test]
fn a_busy_function_reads_ones_and_drops_writes() {
    for mut t in busy_ones() {
        let before = t;
        assert_eq!(t.read(0x00, 0xF), Ok(0xFFFFFFFF));
        assert_eq!(t.read(0xA8, 0x5), Ok(0xFFFFFFFF));
        assert_eq!(t.read(0xA8, 0x0), Ok(0xFFFFFFFF));
        assert_eq!(t.image(), [0xFF; 256]);
        let ended = |found, count| Walk { found, count };
        assert_eq!(t.walk(0x13), ended(Err(Refusal::Endless), 48));
        assert_eq!(t.walk(0xFF), ended(Ok(Some(0xFC)), 1));
        for offset in (0..256).step_by(4) {
            assert_eq!(t.write(offset, 0xF, 0x00000000), Ok(()));
            assert_eq!(t.write(offset, 0xF, 0xFFFFFFFF), Ok(()));
        }
        assert_eq!(t.read(0x00, 0x10), Err(Refusal::Lanes));
        assert_eq!(t.write(0x01, 0xF, 0), Err(Refusal::Offset));
        assert_eq!(t, before);

        assert_eq!(t.port_read(0xCFC, 4), Err(Refusal::NotOurs));
        assert_eq!(t.port_write(0xCF8, 4, 0x8000102C), Ok(()));
        assert_eq!(t.port_read(0xCF8, 4), Ok(0x8000102C));
        assert_eq!(t.port_read(0xCFE, 2), Ok(0xFFFF));
        assert_eq!(t.port_read(0xCFF, 1), Ok(0xFF));
        assert_eq!(t.port_write(0xCFE, 2, 0x5678), Ok(()));
        let latch = 0x8000102C;
        assert_eq!(t, Twin { latch, ..before });
    }
}

#[test]
fn a_busy_function_claims_nothing_and_hears_its_host() {
    for mut t in busy_ones() {
        let idle = Twin { busy: 0, ..t };
        assert_eq!(idle.claim_memory(0x400010), Some(Claim::Translation(0x10)));
        assert_eq!(idle.claim_port(0xE041), Some(Claim::Io(1)));
        assert_eq!(t.claim_memory(0x400010), None);
        assert_eq!(t.claim_port(0xE041), None);
        let busy = t.busy;
        assert_eq!(t.host_update(0x08, 0xFF, 0x09), Ok(()));
        assert_eq!(t.host_update(0x2C, 0x01, 0x01), Err(Refusal::NotHost));
        assert_eq!((t.bytes[0x08], t.busy), (0x09, busy));
        t.platform_reset();
        assert_eq!(t, Twin::fresh());
    }
}

/// A window of foreign making.
const FOREIGN: Registers = Registers {
    fault: 0x5A00_1153,
    assrreq: 0x1234_567A,
    mtouud: 0x4560_0A01,
    mtouud_high: 0x0000_03F1,
    mbdsm: 0x9AB0_0001,
    cycles: 0xFFFF_FFFE,
};

/// What a guest reads of it.
const SHOWN: [(u32, u32); 6] = [
    (FAULT_REG, 0x5A00_1153),
    (ASSRREQ, 0x0000_567A),
    (MTOUUD, 0x4560_0A01),
    (MTOUUD_HIGH, 0x0000_03F1),
    (MBDSM, 0x9AB0_0001),
    (DRAM_CYCLES, 0xFFFF_FFFE),
];

#[test]
fn window_reads() {
    let idle = Twin {
        window: FOREIGN,
        ..Twin::fresh()
    };
    let others = [0, 0x04090, 0x08110, 0x10810C, 0x308080, 0x3FFFFC].map(|offset| (offset, 0));
    for (offset, dword) in SHOWN.into_iter().chain(others) {
        for lanes in 0..16 {
            let wanted = in_lanes(dword, lanes);
            assert_eq!(idle.window_read(offset, lanes), Ok(wanted), "{offset:X}");
            for busy in busy_ones() {
                assert_eq!(busy.window_read(offset, lanes), Ok(0xFFFFFFFF));
            }
        }
    }
    for t in busy_ones().into_iter().chain([idle]) {
        for offset in [0x0810D, 0x0810E, 0x3FFFFF, 0x400000, 0x8000810C] {
            assert_eq!(t.window_read(offset, 0x10), Err(Refusal::WindowOffset));
        }
        assert_eq!(t.window_read(ASSRREQ, 0x10), Err(Refusal::Lanes));
    }
}

#[test]
fn requests_and_completions() {
    let mut t = Twin::fresh();
    for (lanes, value, held) in [
        (0xF, 0x0000000F, 0x0),
        (0xF, 0x000F0000, 0x0),
        (0xB, 0xFFFFFFFF, 0x0),
        (0xE, 0xFFFFFFFF, 0x0),
        (0x5, 0x00020002, 0x2),
        (0xF, 0x000A000C, 0xA),
        (0xF, 0x000F0000, 0xA),
        (0xF, 0xFFFFFFFF, 0xF),
    ] {
        assert_eq!(t.window_write(ASSRREQ, lanes, value), Ok(()));
        assert_eq!(t.window_read(ASSRREQ, 0xF), Ok(held), "{value:08X}");
    }
    assert_eq!(t.complete(0x10), Err(Refusal::NotHost));
    assert_eq!(t.complete(0x6), Ok(()));
    assert_eq!(t.window.assrreq, 0x9);
    t.window.assrreq = u32::MAX; // of foreign making
    assert_eq!(t.complete(0xF), Ok(()));
    assert_eq!(t.window.assrreq, 0xFFFFFFF0);
}

#[test]
fn faults() {
    let mut t = Twin::fresh();
    for word in [0x0001, 0x0800, 0x8000, 0x1_0000, u32::MAX] {
        assert_eq!(t.fault(word), Err(Refusal::NotHost));
    }
    assert_eq!(t, Twin::fresh());
    assert_eq!(t.fault(0x1152), Ok(()));
    assert_eq!(t.fault(0x77FE), Ok(())); // lost
    for (lanes, value) in [(0xF, 1), (0xE, 0), (0x0, 0), (0x1, u32::MAX)] {
        assert_eq!(t.window_write(FAULT_REG, lanes, value), Ok(()));
        assert_eq!(t.window.fault, 0x1153);
    }
    assert_eq!(t.window_write(FAULT_REG, 0x1, 0xFFFFFFFE), Ok(()));
    assert_eq!(t.window.fault, 0);
    assert_eq!(t.fault(0), Ok(()));
    assert_eq!(t.window.fault, 1);
}

#[test]
fn the_sum_wraps() {
    let mut t = Twin::fresh();
    for (count, sum) in [(0xFFFFFFFE, 0xFFFFFFFE), (1, 0xFFFFFFFF), (3, 2), (0, 2)] {
        t.add_cycles(count);
        assert_eq!(t.window_read(DRAM_CYCLES, 0xF), Ok(sum));
        assert_eq!(t.window_write(DRAM_CYCLES, 0xF, 0), Ok(()));
    }
    assert_eq!(t.window.cycles, 2);
}

#[test]
fn mirrors() {
    let mut t = Twin::fresh();
    for (offset, mask) in [
        (MTOUUD, 0xFFF00001),
        (MTOUUD_HIGH, 0x0000007F),
        (MBDSM, 0xFFF00001),
        (FAULT_REG, 0),
        (ASSRREQ, 0),
        (DRAM_CYCLES, 0),
        (0x000000, 0),
        (0x3FFFFC, 0),
    ] {
        for place in 0..32 {
            let bit = 1 << place;
            let wanted = match mask & bit {
                0 => Err(Refusal::NotHost),
                _ => Ok(()),
            };
            assert_eq!(t.mirror_update(offset, bit, u32::MAX), wanted);
        }
        assert_eq!(t.mirror_update(offset, 0, u32::MAX), Ok(()));
        assert_eq!(t.window_write(offset, 0xF, 0), Ok(()));
        assert_eq!(t.window_read(offset, 0xF), Ok(mask));
        assert_eq!(t.mirror_update(offset, mask, 0x45600001), Ok(()));
        assert_eq!(t.window_read(offset, 0xF), Ok(mask & 0x45600001));
    }
    for offset in [0x1080C1, 0x1080C2, 0x3FFFFF, 0x400000, 0x5080C0] {
        assert_eq!(
            t.mirror_update(offset, u32::MAX, 0),
            Err(Refusal::WindowOffset)
        );
    }
}

#[test]
fn from_a_claimed_address_to_a_register() {
    let base = 0x12_0040_0000;
    let mut t = after(&[
        (0x04, 0x1, 0x02),
        (0x10, 0xF, 0x00400000),
        (0x14, 0xF, 0x12),
    ]);
    t.window = FOREIGN;
    for (register, shown) in SHOWN {
        let claim = t.claim_memory(base + u64::from(register));
        assert_eq!(claim, Some(Claim::Translation(register)));
        assert_eq!(t.window_read(register, 0xF), Ok(shown));
    }
}

#[test]
fn a_busy_function_keeps_its_window_and_hears_its_host() {
    for mut t in busy_ones() {
        let before = t;
        for (offset, _) in SHOWN {
            for value in [0, u32::MAX] {
                assert_eq!(t.window_write(offset, 0xF, value), Ok(()));
            }
        }
        assert_eq!(t.window_write(0x0810D, 0xF, 0), Err(Refusal::WindowOffset));
        assert_eq!(t, before);

        t.window.fault = 0;
        assert_eq!(t.fault(0x4008), Ok(()));
        assert_eq!(t.complete(0x2), Ok(()));
        t.add_cycles(3);
        assert_eq!(t.mirror_update(MBDSM, 0xFFF00001, 0x12300000), Ok(()));
        let held = Registers {
            fault: 0x4009,
            assrreq: 0x1234_5678,
            mbdsm: 0x1230_0000,
            cycles: 1,
            ..FOREIGN
        };
        assert_eq!(
            t,
            Twin {
                window: held,
                ..before
            }
        );
        t.end_signal();
        assert_eq!(t.window, held);
        t.platform_reset();
        assert_eq!(t.window, Registers::default());
    }
}

#[test]
fn refusals_leave_every_byte() {
    let rows = [
        (1, 0x01, 0xF, 0, 5),
        (1, 0x100, 0x10, 0, 5),
        (1, 0x2C, 0x10, 0, 6),
        (2, 0x02, 0xF, 0, 5),
        (2, 0x100, 0x0, 0, 5),
        (2, 0x00, 0x10, 0, 6),
        (3, 0x100, 0xFF, 0, 5),
        (3, 0x2C, 0x01, 0, 7),
        (3, 0x02, 0x100, 0, 9),
        (3, 0x02, 0xFF, 0x100, 9),
        (4, 0xCFC, 3, 0, 2),
        (4, 0xCF8, 2, 0, 3),
        (4, 0x10CF8, 4, 0, 9),
        (5, 0xD00, 1, 0, 3),
        (5, 0x10000, 4, 0, 9),
        (7, 0x10000, 0, 0, 9),
        (8, 2, 0, 0, 8),
        (9, 0x100, 0, 0, 9),
        (11, 0x400000, 0x10, 0, 16),
        (11, 0x0810D, 0xF, 0, 16),
        (11, 0x0810C, 0x10, 0, 6),
        (12, 0x04096, 0x0, 0, 16),
        (12, 0x04094, 0x10, 0, 6),
        (13, 0x10, 0, 0, 7),
        (14, 0x1, 0, 0, 7),
        (16, 0x400000, 0, 0, 16),
        (16, 0x1080C2, 0x2, 0, 16),
        (16, 0x1080C0, 0x2, 0, 7),
        (17, 0, 0, 0, 9),
        (0x10A, 0, 0, 0, 9),
        (u32::MAX, 0, 0, 0, 9),
    ];
    for busy in [0, 1, 0x5A] {
        let mut lent = Lent([0x5A; SIZE]); // a record of foreign making
        lent.0[263] = busy;
        let before = lent;
        for (op, a, b, c, number) in rows {
            // SAFETY: a whole record, aligned, used here alone.
            let result = unsafe { raw::twin_do(lent.record(), op, a, b, c) };
            assert_eq!(result, number << 48, "operation {op}");
            assert_eq!(lent, before, "operation {op}");
        }
        for (offset, lanes, number) in [(0x2D, 0xF, 5), (0x2C, 0x10, 6)] {
            // SAFETY: as above.
            let (there, by_value) = unsafe {
                (
                    raw::twin_write(lent.record(), offset, lanes, 0),
                    raw::twin_write_by_value(lent.record(), offset, lanes, 0),
                )
            };
            assert_eq!((there, by_value), (number, number));
            assert_eq!(lent, before);
        }
        for (offset, lanes, number) in [(0x2D, 0xF, 5), (0x2D, 0x0, 5), (0x2C, 0x10, 6)] {
            // SAFETY: as above.
            let result = unsafe { raw::twin_read(lent.record(), offset, lanes) };
            assert_eq!(result, number << 48);
            assert_eq!(lent, before);
        }
    }
}

#[test]
fn refusal_numbers() {
    for number in [0, 12, 15, 17] {
        assert_eq!(Refusal::of(number), None);
    }
    for (number, refusal) in (1..=11).chain([16]).zip(Refusal::ALL) {
        assert_eq!(refusal.number(), number);
        assert_eq!(Refusal::of(number), Some(refusal));
    }
    assert_eq!(Refusal::NotOurs.to_string(), "refusal 3, NOT OURS");
    assert_eq!(
        Refusal::WindowOffset.to_string(),
        "refusal 16, WINDOW OFFSET"
    );
}
