//! Register sheets: their refusals, the device, the table, and made sheets.

use second::damage::{kinds, Meant};
use second::line::Mode;
use second::made_sheet::{any, made, Shape};
use second::plain_device::{self, PlainDevice};
use second::player;
use second::refusal::Refusal;
use second::rng::Rng;
use second::sheet::{lay_out, read, BodyFault, EntryFault, Fault, Register, Sheet, LONGEST};

/// One register at 10h of two bytes.
const ONE: [u8; 13] = [
    1, // entries
    0x10, 2, 5, 0, // offset, length, body start
    0x34, 0x12, // default
    0xFF, 0x00, // guest
    0x00, 0xFF, // host
    0x0F, 0x00, // reset
];

/// Two registers next to each other, and a third one that ends with byte 255.
const THREE: [u8; 37] = [
    3, // entries
    0x06, 1, 13, 0, //
    0x07, 2, 17, 0, //
    0xFD, 3, 25, 0, //
    0xA5, 0x0F, 0xF0, 0x03, // 06
    0x01, 0x02, 0x30, 0xC0, 0x0C, 0x03, 0x10, 0x40, // 07
    0x11, 0x22, 0x33, 0xFF, 0x00, 0xF0, 0x00, 0xFF, 0x0F, 0x80, 0x00, 0x10, // FD
];

/// Places in a sheet, and the bytes that are put there.
type Changes<'a> = &'a [(usize, u8)];

/// A sheet with some of its bytes changed.
fn with<const N: usize>(sheet: [u8; N], changes: Changes) -> Vec<u8> {
    let mut bytes = sheet.to_vec();
    for (place, byte) in changes {
        bytes[*place] = *byte;
    }
    bytes
}

/// The refusal of bytes that are no sheet, by number and entry.
fn refusal(bytes: &[u8]) -> (u32, Option<usize>) {
    let fault = read(bytes).unwrap_err();
    (fault.refusal().number(), fault.entry())
}

/// The answers to a session on a sheet as text.
fn say(sheet: &[u8], session: &str) -> String {
    String::from_utf8(plain_device::answers(
        &read(sheet).unwrap(),
        session.as_bytes(),
    ))
    .unwrap()
}

// ---- the format

#[test]
fn a_sheet_byte_by_byte() {
    let register = |at, [default, guest, host, reset]: [&[u8]; 4]| Register {
        at,
        default: default.to_vec(),
        guest: guest.to_vec(),
        host: host.to_vec(),
        reset: reset.to_vec(),
    };
    let one = register(0x10, [&[0x34, 0x12], &[0xFF, 0], &[0, 0xFF], &[0x0F, 0]]);
    assert_eq!(read(&ONE).unwrap().registers, [one]);
    let three = [
        register(0x06, [&[0xA5], &[0x0F], &[0xF0], &[0x03]]),
        register(0x07, [&[1, 2], &[0x30, 0xC0], &[0x0C, 3], &[0x10, 0x40]]),
        register(
            0xFD,
            [
                &[0x11, 0x22, 0x33],
                &[0xFF, 0, 0xF0],
                &[0, 0xFF, 0x0F],
                &[0x80, 0, 0x10],
            ],
        ),
    ];
    assert_eq!(read(&THREE).unwrap().registers, three);
    assert_eq!(lay_out(&three), THREE);
}

#[test]
fn sizes_at_their_ends() {
    assert_eq!(LONGEST, 1281);
    let plain = |at, length: usize| Register {
        at,
        default: vec![0xAA; length],
        guest: vec![0xFF; length],
        host: vec![0; length],
        reset: vec![0xFF; length],
    };
    let every_byte: Vec<Register> = (0..64).map(|index| plain(index * 4, 4)).collect();
    assert_eq!(lay_out(&every_byte).len(), 1281);
    let first_and_last_byte = vec![plain(0, 1), plain(255, 1)];
    let first_and_last_eight = vec![plain(0, 8), plain(248, 8)];
    for registers in [every_byte, first_and_last_byte, first_and_last_eight] {
        assert_eq!(read(&lay_out(&registers)), Ok(Sheet { registers }));
    }
}

#[test]
fn the_number_of_entries() {
    assert_eq!(read(&[]), Err(Fault::Empty));
    assert_eq!(refusal(&[]), (12, None));
    for count in [0, 65, 128, 255] {
        assert_eq!(refusal(&[count]), (13, None));
        assert_eq!(refusal(&with(ONE, &[(0, count)])), (13, None));
    }
    assert_eq!(refusal(&with(ONE, &[(0, 64)])), (12, None));
}

#[test]
fn every_cut_is_a_length() {
    for sheet in [&ONE[..], &THREE] {
        for length in 0..sheet.len() {
            assert_eq!(refusal(&sheet[..length]), (12, None), "{length}");
        }
    }
    assert_eq!(read(&THREE[..12]), Err(Fault::ContentsCut));
    assert_eq!(read(&THREE[..13]), Err(Fault::Total));
    assert_eq!(read(&THREE[..36]), Err(Fault::Total));
    assert_eq!(read(&[&THREE[..], &[0]].concat()), Err(Fault::Total));
}

#[test]
fn entries() {
    use EntryFault::{End, Length, Order, Start};
    let faults: [(Changes, usize, EntryFault); 20] = [
        (&[(2, 0)], 1, Length),
        (&[(2, 9)], 1, Length),
        (&[(6, 0)], 2, Length),
        (&[(10, 255)], 3, Length),
        (&[(5, 0x06)], 2, Order),
        (&[(5, 0x05)], 2, Order),
        (&[(9, 0x08)], 3, Order),
        (&[(9, 0x07)], 3, Order),
        (&[(9, 0x00)], 3, Order),
        (&[(9, 0xFE)], 3, End),
        (&[(9, 0xFF)], 3, End),
        (&[(1, 0xFF), (2, 2)], 1, End),
        (&[(3, 12)], 1, Start),
        (&[(3, 14)], 1, Start),
        (&[(3, 0)], 1, Start),
        (&[(3, 0), (4, 13)], 1, Start),
        (&[(4, 1)], 1, Start),
        (&[(7, 13)], 2, Start),
        (&[(7, 18)], 2, Start),
        (&[(12, 0x80)], 3, Start),
    ];
    for (changes, entry, fault) in faults {
        let bytes = with(THREE, changes);
        assert_eq!(read(&bytes), Err(Fault::Entry(entry, fault)), "{changes:?}");
        assert_eq!(refusal(&bytes), (13, Some(entry)));
    }
    // Free bytes between registers are no fault.
    assert!(read(&with(THREE, &[(9, 0x09)])).is_ok());
    assert!(read(&with(THREE, &[(1, 0x00)])).is_ok());
}

#[test]
fn masks() {
    use BodyFault::{Reset, Shared};
    let faults: [(Changes, usize, BodyFault); 10] = [
        (&[(15, 0xF1)], 1, Shared),
        (&[(15, 0xF8)], 1, Shared),
        (&[(16, 0x13)], 1, Reset),
        (&[(16, 0x83)], 1, Reset),
        (&[(21, 0x2C)], 2, Shared),
        (&[(24, 0x41)], 2, Reset),
        (&[(20, 0x00)], 2, Reset),
        (&[(31, 0x01)], 3, Shared),
        (&[(33, 0x1F)], 3, Shared),
        (&[(36, 0x18)], 3, Reset),
    ];
    for (changes, entry, fault) in faults {
        let bytes = with(THREE, changes);
        assert_eq!(read(&bytes), Err(Fault::Body(entry, fault)), "{changes:?}");
        assert_eq!(refusal(&bytes), (14, Some(entry)));
    }
}

#[test]
fn the_order_of_refusals() {
    let longer = |bytes: Vec<u8>| [bytes, vec![0]].concat();
    let shorter = |bytes: Vec<u8>, length: usize| bytes[..length].to_vec();
    let bad_masks = with(THREE, &[(15, 0xFF)]);
    let bad_entry = with(THREE, &[(6, 9)]);
    let long = |bytes: Vec<u8>| [bytes, vec![0; 70_000]].concat();
    for (bytes, number, entry) in [
        // Files longer than any sheet are asked in the same order.
        (vec![0; 1281], 13, None),
        (vec![0; 1282], 13, None),
        (vec![255; 2000], 13, None),
        (long(with(THREE, &[(0, 65)])), 13, None),
        (long(bad_entry.clone()), 13, Some(2)),
        (long(with(THREE, &[(12, 1)])), 13, Some(3)),
        (long(THREE.to_vec()), 12, None),
        (long(bad_masks.clone()), 12, None),
        // The number of entries before contents cut short.
        (vec![65, 0, 0], 13, None),
        // Contents cut short before entries.
        (shorter(bad_entry.clone(), 12), 12, None),
        // Entries before the total length.
        (shorter(bad_entry.clone(), 13), 13, Some(2)),
        (shorter(bad_entry.clone(), 36), 13, Some(2)),
        (longer(bad_entry), 13, Some(2)),
        // The total length before masks.
        (shorter(bad_masks.clone(), 36), 12, None),
        (longer(bad_masks.clone()), 12, None),
        (bad_masks, 14, Some(1)),
        // Entries before masks, also of earlier registers.
        (with(THREE, &[(15, 0xFF), (12, 1)]), 13, Some(3)),
        // The first of two.
        (with(THREE, &[(2, 0), (6, 0)]), 13, Some(1)),
        (with(THREE, &[(24, 0xFF), (33, 0xFF)]), 14, Some(2)),
    ] {
        assert_eq!(refusal(&bytes), (number, entry), "{bytes:?}");
    }
}

// ---- the device

#[test]
fn unlisted_bytes_read_0_and_take_nothing() {
    for offset in (0..256).step_by(4).filter(|offset| *offset != 0x10) {
        let session = format!("W {offset:02X} F FFFFFFFF\nR {offset:02X} F\n");
        assert_eq!(say(&ONE, &session), "OK\nOK 00000000\n");
    }
    assert_eq!(say(&ONE, "W 10 C FFFFFFFF\nR 10 F"), "OK\nOK 00001234\n");
    assert_eq!(
        say(&ONE, "H 12 01 00\nH 12 00 FF\nH FF 80 80\nR 10 F"),
        "NO 7\nOK\nNO 7\nOK 00001234\n"
    );
}

#[test]
fn lanes() {
    for lanes in 0..16 {
        let guest = if lanes & 1 == 1 { 0xCD } else { 0x34 };
        let value = u32::from_le_bytes([guest, 0x12, 0, 0]);
        let session = format!("W 10 {lanes:X} 0000ABCD\nR 10 F\nR 10 {lanes:X}");
        let lane = |place: u32| {
            if lanes >> place & 1 == 1 {
                0xFF << (8 * place)
            } else {
                0
            }
        };
        let enabled = lane(0) | lane(1) | lane(2) | lane(3);
        let wanted = format!("OK\nOK {value:08X}\nOK {:08X}\n", value | !enabled);
        assert_eq!(say(&ONE, &session), wanted, "{lanes}");
    }
}

#[test]
fn a_register_across_dwords() {
    // Bytes 06 to 08: A5, then 0201 with guest bits C030.
    assert_eq!(say(&THREE, "R 04 F\nR 08 F"), "OK 01A50000\nOK 00000002\n");
    assert_eq!(
        say(&THREE, "W 04 F FFFFFFFF\nW 08 F FFFFFFFF\nR 04 F\nR 08 F"),
        "OK\nOK\nOK 31AF0000\nOK 000000C2\n"
    );
    assert_eq!(say(&THREE, "W FC F 00000000\nR FC F"), "OK\nOK 03220000\n");
}

#[test]
fn host_updates() {
    assert_eq!(
        say(
            &ONE,
            "H 11 0F FF\nR 10 F\nH 11 F0 00\nR 10 F\nH 11 FF AB\nR 10 F"
        ),
        "OK\nOK 00001F34\nOK\nOK 00000F34\nOK\nOK 0000AB34\n"
    );
    assert_eq!(say(&ONE, "H 10 01 01\nR 10 F"), "NO 7\nOK 00001234\n");
    assert_eq!(say(&THREE, "H 06 F8 FF\nR 04 4"), "NO 7\nOK FFA5FFFF\n");
    let mut device = PlainDevice::fresh(&read(&ONE).unwrap());
    assert_eq!(device.host_update(256, 0, 0), Err(Refusal::Offset));
    assert_eq!(device.host_update(256, 0xFF, 0), Err(Refusal::Offset));
    assert_eq!(device.host_update(0x111, 0xFF, 0), Err(Refusal::Offset));
    assert_eq!(device.host_update(255, 0, 0), Ok(()));
}

#[test]
fn direct_refusals() {
    let mut device = PlainDevice::fresh(&read(&ONE).unwrap());
    for offset in [1, 0x11, 0x12, 0x13, 255, 256, 260, u32::MAX] {
        assert_eq!(device.guest_read(offset, 16), Err(Refusal::Offset));
        assert_eq!(device.guest_write(offset, 16, 0), Err(Refusal::Offset));
    }
    for lanes in [16, 31, u32::MAX] {
        assert_eq!(device.guest_read(0x10, lanes), Err(Refusal::Lanes));
        assert_eq!(device.guest_write(0x10, lanes, 0), Err(Refusal::Lanes));
    }
    assert_eq!(device, PlainDevice::fresh(&read(&ONE).unwrap()));
}

#[test]
fn resets() {
    let session = |end: &str| format!("W 10 F FFFFFFFF\nH 11 FF AB\n{end}\nR 10 F");
    // Reset bits 3:0 return to 4; bits 7:4 and the host's stay.
    assert_eq!(say(&ONE, &session("Z")), "OK\nOK\nOK\nOK 0000ABF4\n");
    assert_eq!(say(&ONE, &session("P")), "OK\nOK\nOK\nOK 00001234\n");
    assert_eq!(
        say(&ONE, "Z\nR 10 F\nP\nR 10 F"),
        "OK\nOK 00001234\nOK\nOK 00001234\n"
    );
    // The end signal is no line of a sheet's session and resets nothing.
    assert_eq!(say(&ONE, &session("E")), "OK\nOK\nNO 9\nOK 0000ABFF\n");
}

#[test]
fn no_rule_but_the_plain_one() {
    // Bytes that the paper's map gives rules of their own, all the guest's.
    let all = |at, length: usize| Register {
        at,
        default: vec![0; length],
        guest: vec![0xFF; length],
        host: vec![0; length],
        reset: vec![0; length],
    };
    let sheet = lay_out(&[
        all(0x18, 4),
        all(0x2C, 4),
        all(0x34, 1),
        all(0x60, 4),
        all(0x7C, 4),
    ]);
    for (offset, first, second) in [
        (0x2C, 0x1234_5678_u32, 0x8765_4321_u32),
        (0x60, 0x0006_0000, 0x0004_0000),
        (0x18, 0xFFFF_FFFF, 0x1800_0000),
    ] {
        let session = format!(
            "W 60 F 00060000\nW {offset:02X} F {first:08X}\nW {offset:02X} F {second:08X}\nR {offset:02X} F"
        );
        assert_eq!(
            say(&sheet, &session),
            format!("OK\nOK\nOK\nOK {second:08X}\n")
        );
    }
    assert_eq!(say(&sheet, "W 7C 8 01000000\nR 34 F"), "OK\nOK 00000000\n");
    let sheet = lay_out(&[all(0xA8, 1), all(0xD4, 1)]);
    assert_eq!(say(&sheet, "W A8 1 00000001\nR A8 F"), "OK\nOK 00000001\n");
    assert_eq!(say(&sheet, "W D4 1 00000002\nR D4 F"), "OK\nOK 00000002\n");
}

#[test]
fn the_function_reset_is_a_line_of_sheets_alone() {
    for mode in [Mode::Player, Mode::Console] {
        assert_eq!(player::answers(b"Z\n", mode), b"NO 9\n");
    }
    assert_eq!(Mode::named("sheet"), None);
    for line in [
        "Z ", " Z", "z", "ZZ", "Z 0", "Z\r", "Z\t", "Z\0", "Y", "[", "",
    ] {
        assert_eq!(say(&ONE, &format!("{line}\n")), "NO 9\n", "{line:?}");
    }
    for line in [
        "E",
        "E ",
        "e",
        "K 13",
        "N 0CF8",
        "O 0CF8 4 80001000",
        "I 0CF8 4",
        "S F000000C FFFFFFFF",
        "V 00810C F 000F000F",
        "U 00810C F",
        "C 0000000F",
        "F 000077FE",
        "T 00000001",
        "Y 1080C0 FFF00001 89ABCDEF",
    ] {
        assert_eq!(say(&ONE, &format!("{line}\n")), "NO 9\n", "{line:?}");
    }
    for (session, wanted) in [
        ("", ""),
        ("\n", "NO 9\n"),
        ("Z", "OK\n"),
        ("Z\nR 10", "OK\nNO 9\n"),
    ] {
        assert_eq!(say(&ONE, session), wanted, "{session:?}");
    }
}

/// One part of one byte as the sheet's bytes have it: default, guest, host or
/// reset by number. It goes through the entries by their body starts.
fn part(sheet: &[u8], at: usize, part: usize) -> u8 {
    for entry in sheet[1..].chunks(4).take(sheet[0].into()) {
        let (first, length) = (usize::from(entry[0]), usize::from(entry[1]));
        let body = usize::from(entry[2]) + 256 * usize::from(entry[3]);
        if (first..first + length).contains(&at) {
            return sheet[body + part * length + at - first];
        }
    }
    0
}

/// What has happened to each byte's bits since they last were default: which
/// of them were given a value, and which.
struct History {
    given: [u8; 256],
    value: [u8; 256],
}

impl History {
    fn give(&mut self, at: usize, mask: u8, value: u8) {
        self.given[at] |= mask;
        self.value[at] = self.value[at] & !mask | value & mask;
    }

    fn forget(&mut self, mask_of: impl Fn(usize) -> u8) {
        (0..256).for_each(|at| self.given[at] &= !mask_of(at));
    }

    fn byte(&self, at: usize, default: u8) -> u8 {
        default & !self.given[at] | self.value[at] & self.given[at]
    }
}

/// One event on the device, and what it means for the guest's and the host's history.
fn any_event(rng: &mut Rng, sheet: &[u8], device: &mut PlainDevice, past: &mut History) {
    let (at, mask, value) = (rng.index(256), rng.byte(), rng.byte());
    match rng.below(20) {
        0 => {
            device.platform_reset();
            past.forget(|_| 0xFF);
        }
        1 => {
            device.function_reset();
            past.forget(|at| part(sheet, at, 3));
        }
        2..=10 => {
            let mask = if rng.one_in(4) {
                mask
            } else {
                mask & part(sheet, at, 2)
            };
            let accepted = device.host_update(at as u32, mask, value).is_ok();
            assert_eq!(accepted, mask & !part(sheet, at, 2) == 0);
            past.give(at, if accepted { mask } else { 0 }, value);
        }
        _ => {
            let (offset, lanes, value) = (at & !3, rng.below(16) as u32, rng.telling_dword());
            assert!(device.guest_write(offset as u32, lanes, value).is_ok());
            for lane in (0..4).filter(|lane| lanes >> lane & 1 == 1) {
                let guest = part(sheet, offset + lane, 1);
                past.give(offset + lane, guest, value.to_le_bytes()[lane]);
            }
        }
    }
}

#[test]
fn every_bit_holds_what_its_history_gives() {
    // For bits outside the guest mask this is demand 3's read-only clause: the
    // default, or what the last accepted host update since the last P gave.
    let mut rng = Rng::new(201);
    for _ in 0..40 {
        let sheet = lay_out(&any(&mut rng).registers);
        let mut device = PlainDevice::fresh(&read(&sheet).unwrap());
        let mut past = History {
            given: [0; 256],
            value: [0; 256],
        };
        for _ in 0..300 {
            any_event(&mut rng, &sheet, &mut device, &mut past);
            let wanted: Vec<u8> = (0..256)
                .map(|at| past.byte(at, part(&sheet, at, 0)))
                .collect();
            assert_eq!(device.bytes()[..], wanted);
        }
    }
}

// ---- the table

#[test]
fn the_table() {
    let one = "\
At  Bytes           Default             Guest              Host             Reset
10      2              1234              00FF              FF00              000F
";
    assert_eq!(read(&ONE).unwrap().table(), one);
    let three = "\
At  Bytes           Default             Guest              Host             Reset
06      1                A5                0F                F0                03
07      2              0201              C030              030C              4010
FD      3            332211            F000FF            0FFF00            100080
";
    assert_eq!(read(&THREE).unwrap().table(), three);
    assert!(three.lines().all(|line| line.len() == 81));
    let eight = [
        1, 0xF8, 8, 5, 0, 1, 2, 3, 4, 5, 6, 7, 8, 0xFF, 0, 0, 0, 0, 0, 0, 0x80, 0, 0xFF, 0, 0, 0,
        0, 0, 1, 1, 0, 0, 0, 0, 0, 0, 0x80,
    ];
    assert_eq!(
        read(&eight).unwrap().table().lines().nth(1),
        Some("F8      8  0807060504030201  80000000000000FF  010000000000FF00  8000000000000001")
    );
}

// ---- made sheets

#[test]
fn made_sheets_are_good_and_of_all_sizes() {
    let mut rng = Rng::new(1);
    let mut counts = [false; 65];
    let mut lengths = [false; 9];
    let (mut first_byte, mut last_byte) = (false, false);
    for shape in Shape::ALL.into_iter().cycle().take(3_000) {
        let sheet = made(&mut rng, shape);
        let bytes = lay_out(&sheet.registers);
        assert!(shape != Shape::Longest || bytes.len() == LONGEST);
        counts[sheet.registers.len()] = true;
        for register in &sheet.registers {
            lengths[register.bytes()] = true;
            first_byte |= register.at == 0;
            last_byte |= register.end() == 256;
        }
        assert_eq!(read(&bytes), Ok(sheet));
    }
    assert!(counts[1..].iter().all(|seen| *seen) && lengths[1..].iter().all(|seen| *seen));
    assert!(first_byte && last_byte);
}

#[test]
fn damage_is_refused_as_meant() {
    let mut rng = Rng::new(2);
    for (name, damage) in kinds() {
        for _ in 0..100 {
            let damaged = damage(&mut rng);
            if let Meant::Refused { number, entry } = damaged.meant {
                assert_eq!(refusal(&damaged.bytes), (number, entry), "{name}");
            }
        }
    }
}
