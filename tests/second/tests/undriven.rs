//! Undriven lanes read as ones in a direct read, of the twin and of a sheet's
//! device; a port read has zeros above its width as ever.

mod common {
    pub mod lanes;
    pub mod rows;
}

use common::lanes::UNDRIVEN;
use common::rows::{check, check_twin};
use second::line::Mode::{Console, Player};
use second::plain_device::{self, PlainDevice};
use second::refusal::Refusal;
use second::sheet::{self, Sheet};
use second::twin::{Record, Twin};

/// Every data access of the port pair: port, width, and its lanes.
const DATA: [(u16, u32, u32); 8] = [
    (0xCFC, 1, 0x1),
    (0xCFD, 1, 0x2),
    (0xCFE, 1, 0x4),
    (0xCFF, 1, 0x8),
    (0xCFC, 2, 0x3),
    (0xCFD, 2, 0x6),
    (0xCFE, 2, 0xC),
    (0xCFC, 4, 0xF),
];

/// A sheet with one register at 10h of two bytes: default 1234, guest 00FF,
/// host FF00, reset 000F.
const SHEET: [u8; 13] = [
    1, 0x10, 2, 5, 0, 0x34, 0x12, 0xFF, 0x00, 0x00, 0xFF, 0x0F, 0x00,
];

fn dwords() -> impl Iterator<Item = u32> {
    (0..256).step_by(4)
}

/// A record of one byte all over.
fn foreign(byte: u8) -> Record {
    Record {
        bytes: [byte; 256],
        latch: 0x8000_1000,
        closed: [0, 9, 1],
        busy: 0,
        window: [0; 6],
    }
}

/// Records of many kinds, none of them busy.
fn records() -> Vec<Record> {
    let mut written = Twin::fresh();
    for offset in dwords().filter(|offset| *offset != 0xA8) {
        written.guest_write(offset, 0xF, 0x1234_5678).unwrap();
    }
    let mut places = foreign(0);
    for at in 0..=255 {
        places.bytes[usize::from(at)] = at;
    }
    let foreigns = [0x00, 0x5A, 0xFF].map(foreign);
    [Twin::fresh().record(), written.record(), places]
        .into_iter()
        .chain(foreigns)
        .collect()
}

/// The same record, busy.
fn busy(record: &Record) -> Record {
    Record { busy: 1, ..*record }
}

fn the_sheet() -> Sheet {
    sheet::read(&SHEET).unwrap()
}

// ---- direct reads

/// The first dword of a fresh twin, 01528086, by every lanes.
const FIRST_DWORD: [u32; 16] = [
    0xFFFF_FFFF,
    0xFFFF_FF86,
    0xFFFF_80FF,
    0xFFFF_8086,
    0xFF52_FFFF,
    0xFF52_FF86,
    0xFF52_80FF,
    0xFF52_8086,
    0x01FF_FFFF,
    0x01FF_FF86,
    0x01FF_80FF,
    0x01FF_8086,
    0x0152_FFFF,
    0x0152_FF86,
    0x0152_80FF,
    0x0152_8086,
];

#[test]
fn the_first_dword_by_every_lanes() {
    let twin = Twin::fresh();
    for (lanes, wanted) in (0..).zip(FIRST_DWORD) {
        assert_eq!(twin.guest_read(0x00, lanes), Ok(wanted), "lanes {lanes:X}");
    }
}

#[test]
fn every_dword_by_every_lanes() {
    for record in records() {
        // CAPPOINT shows the list's start, whatever the byte holds.
        let mut shown = record.bytes;
        shown[0x34] = if shown[0x7F] & 1 == 0 { 0x90 } else { 0xD0 };
        let twin = Twin::of_record(&record);
        for (offset, bytes) in dwords().zip(shown.chunks(4)) {
            let whole = u32::from_le_bytes(bytes.try_into().unwrap());
            for (lanes, undriven) in (0..).zip(UNDRIVEN) {
                let read = twin.guest_read(offset, lanes);
                assert_eq!(read, Ok(whole | undriven), "{offset:02X} {lanes:X}");
            }
        }
        assert_eq!(twin.record(), record);
    }
}

#[test]
fn a_session_by_every_lanes() {
    // GSE is the guest's, and a function reset leaves it.
    let reads = [
        ("R E4 0", "OK FFFFFFFF"),
        ("R E4 1", "OK FFFFFF78"),
        ("R E4 2", "OK FFFF56FF"),
        ("R E4 3", "OK FFFF5678"),
        ("R E4 4", "OK FF00FFFF"),
        ("R E4 5", "OK FF00FF78"),
        ("R E4 6", "OK FF0056FF"),
        ("R E4 7", "OK FF005678"),
        ("R E4 8", "OK 12FFFFFF"),
        ("R E4 9", "OK 12FFFF78"),
        ("R E4 A", "OK 12FF56FF"),
        ("R E4 B", "OK 12FF5678"),
        ("R E4 C", "OK 1200FFFF"),
        ("R E4 D", "OK 1200FF78"),
        ("R E4 E", "OK 120056FF"),
        ("R E4 F", "OK 12005678"),
    ];
    let while_busy = reads.map(|(line, _)| (line, "OK FFFFFFFF"));
    let rows = [
        &[("R E4 0", "OK FFFFFFFF"), ("R E4 6", "OK FF0000FF")][..],
        &[("W E4 F 12005678", "OK")],
        &reads,
        &[("W A8 1 00000001", "OK")],
        &while_busy,
        &[("E", "OK")],
        &reads,
        &[("P", "OK"), ("R E4 9", "OK 00FFFF00")],
    ]
    .concat();
    check_twin(Player, &rows);
    check_twin(Console, &rows);
}

// ---- refused reads

/// Bad accesses, and their refusals: every lanes at an offset that is refused,
/// and lanes that are refused at every dword.
fn refused() -> Vec<(u32, u32, Refusal)> {
    let offsets = [0x01, 0x2D, 0x2E, 0x2F, 0xFF, 0x100, 0x104, u32::MAX];
    let by_offset = offsets
        .into_iter()
        .flat_map(|offset| (0..18).map(move |lanes| (offset, lanes, Refusal::Offset)));
    let by_lanes = dwords().flat_map(|offset| {
        [16, 17, 31, 0x8000_0000, u32::MAX].map(|lanes| (offset, lanes, Refusal::Lanes))
    });
    by_offset.chain(by_lanes).collect()
}

#[test]
fn refused_reads() {
    let device = PlainDevice::fresh(&the_sheet());
    for (offset, lanes, refusal) in refused() {
        for record in [Twin::fresh().record(), busy(&Twin::fresh().record())] {
            let twin = Twin::of_record(&record);
            assert_eq!(twin.guest_read(offset, lanes), Err(refusal));
        }
        assert_eq!(device.guest_read(offset, lanes), Err(refusal));
    }
}

#[test]
fn a_refused_read_says_its_number_alone() {
    let refused = ["R 2D 0", "R 2D 3", "R 2E F", "R FF 0"].map(|line| (line, "NO 5"));
    let rows = [
        &refused[..],
        &[("R 2C 10", "NO 9"), ("R 100 0", "NO 9")],
        &[("W A8 1 00000001", "OK")],
        &refused,
    ]
    .concat();
    check_twin(Player, &rows);
    check_twin(Console, &rows);
    check(&refused, |session| {
        plain_device::answers(&the_sheet(), session)
    });
}

// ---- port reads

/// What the ports read at a dword of the function.
fn port_reads(record: &Record, offset: u32) -> [u32; 8] {
    let mut twin = Twin::of_record(record);
    twin.port_write(0xCF8, 4, 0x8000_1000 | offset).unwrap();
    DATA.map(|(port, width, _)| twin.port_read(port, width).unwrap())
}

#[test]
fn the_first_dword_by_every_port() {
    let fresh = Twin::fresh().record();
    assert_eq!(
        port_reads(&fresh, 0x00),
        [0x86, 0x80, 0x52, 0x01, 0x8086, 0x5280, 0x0152, 0x0152_8086]
    );
    assert_eq!(
        port_reads(&busy(&fresh), 0x00),
        [0xFF, 0xFF, 0xFF, 0xFF, 0xFFFF, 0xFFFF, 0xFFFF, 0xFFFF_FFFF]
    );
    assert_eq!(port_reads(&foreign(0x00), 0x00), [0; 8]);
}

#[test]
fn a_port_read_is_the_driven_bytes_moved_down() {
    for record in records() {
        for record in [record, busy(&record)] {
            let twin = Twin::of_record(&record);
            for offset in dwords() {
                let wanted = DATA.map(|(port, _, lanes)| {
                    let direct = twin.guest_read(offset, lanes).unwrap();
                    (direct & !UNDRIVEN[lanes as usize]) >> (8 * (port - 0xCFC))
                });
                assert_eq!(port_reads(&record, offset), wanted, "{offset:02X}");
            }
        }
    }
}

#[test]
fn a_session_by_both_ways() {
    check_twin(
        Console,
        &[
            ("W 2C F 00001234", "OK"),
            ("O 0CF8 4 8000102C", "OK"),
            ("R 2C 3", "OK FFFF1234"),
            ("I 0CFC 2", "OK 00001234"),
            ("R 2C 2", "OK FFFF12FF"),
            ("I 0CFD 1", "OK 00000012"),
            ("R 2C 6", "OK FF0012FF"),
            ("I 0CFD 2", "OK 00000012"),
            ("R 2C 8", "OK 00FFFFFF"),
            ("I 0CFF 1", "OK 00000000"),
            ("R 2C 0", "OK FFFFFFFF"),
            ("I 0CFC 0", "NO 2"),
            ("I 0CF8 4", "OK 8000102C"),
            ("W A8 1 00000001", "OK"),
            ("R 2C 3", "OK FFFFFFFF"),
            ("I 0CFC 2", "OK 0000FFFF"),
            ("R 2C 2", "OK FFFFFFFF"),
            ("I 0CFD 1", "OK 000000FF"),
            ("R 2C 0", "OK FFFFFFFF"),
            ("I 0CFF 2", "NO 3"),
            ("I 0CF8 4", "OK 8000102C"),
        ],
    );
}

// ---- a sheet's device

#[test]
fn a_sheets_device_by_every_lanes() {
    let mut device = PlainDevice::fresh(&the_sheet());
    let holds = |device: &PlainDevice, held: u32| {
        for offset in dwords() {
            let whole = if offset == 0x10 { held } else { 0 };
            for (lanes, undriven) in (0..).zip(UNDRIVEN) {
                let read = device.guest_read(offset, lanes);
                assert_eq!(read, Ok(whole | undriven), "{offset:02X} {lanes:X}");
            }
        }
    };
    holds(&device, 0x1234);
    device.guest_write(0x10, 0x1, 0x99).unwrap();
    holds(&device, 0x1299);
    device.host_update(0x11, 0xFF, 0x00).unwrap();
    holds(&device, 0x0099);
    device.function_reset();
    holds(&device, 0x0094);
    device.platform_reset();
    holds(&device, 0x1234);
}

#[test]
fn a_session_on_a_sheet() {
    let rows = [
        ("R 10 0", "OK FFFFFFFF"),
        ("R 10 1", "OK FFFFFF34"),
        ("R 10 6", "OK FF0012FF"),
        ("R 14 3", "OK FFFF0000"),
        ("R 14 0", "OK FFFFFFFF"),
        ("W 10 F 00000000", "OK"),
        ("R 10 1", "OK FFFFFF00"),
        ("R 10 9", "OK 00FFFF00"),
        ("W 10 0 FFFFFFFF", "OK"),
        ("R 10 D", "OK 0000FF00"),
        ("H 11 FF 00", "OK"),
        ("R 10 2", "OK FFFF00FF"),
        ("Z", "OK"),
        ("R 10 3", "OK FFFF0004"),
        ("R 10 0", "OK FFFFFFFF"),
        ("P", "OK"),
        ("R 10 3", "OK FFFF1234"),
        ("R 10 C", "OK 0000FFFF"),
        ("R 10 F", "OK 00001234"),
    ];
    check(&rows, |session| {
        plain_device::answers(&the_sheet(), session)
    });
}
