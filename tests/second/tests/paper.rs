//! The paper's own examples.

use second::line::Mode;
use second::player::answers;
use second::probe::{probe, Kind, Range};
use second::refusal::Refusal;
use second::twin::Twin;
use second::walk::Walk;

/// Plays the lines from a fresh state and gives the last answer.
fn last_answer(lines: &[&str]) -> String {
    let session = lines.join("\n");
    let output = String::from_utf8(answers(session.as_bytes(), Mode::Player)).unwrap();
    output.lines().last().unwrap().to_string()
}

#[test]
fn whole_player_example() {
    let rows = [
        ("W 2C 3 00001234", "OK"),
        ("W 2C F ABCD5678", "OK"),
        ("R 2C F", "OK ABCD1234"),
        ("R 2D F", "NO 5"),
        ("W 04 1 00000407", "OK"),
        ("R 04 F", "OK 00900007"),
        ("X", "NO 9"),
    ];
    let session: String = rows.iter().map(|(line, _)| format!("{line}\n")).collect();
    let wanted: String = rows
        .iter()
        .map(|(_, answer)| format!("{answer}\n"))
        .collect();
    for mode in [Mode::Player, Mode::Console] {
        assert_eq!(answers(session.as_bytes(), mode), wanted.as_bytes());
    }
}

#[test]
fn first_dword() {
    assert_eq!(last_answer(&["R 00 F"]), "OK 01528086");
}

#[test]
fn command_and_status() {
    assert_eq!(last_answer(&["W 04 F FFFFFFFF", "R 04 F"]), "OK 00900407");
}

#[test]
fn translation_base() {
    assert_eq!(last_answer(&["W 10 F FFFFFFFF", "R 10 F"]), "OK FFC00004");
}

#[test]
fn aperture_base_at_256_mb() {
    assert_eq!(last_answer(&["W 18 F FFFFFFFF", "R 18 F"]), "OK F000000C");
}

#[test]
fn aperture_base_then_512_mb() {
    let lines = ["W 18 F FFFFFFFF", "R 18 F", "W 60 4 00060000", "R 18 F"];
    assert_eq!(last_answer(&lines), "OK E000000C");
}

#[test]
fn size_code_10_keeps_the_old() {
    assert_eq!(last_answer(&["W 60 4 00F40000", "R 60 4"]), "OK FFF2FFFF");
}

#[test]
fn io_base() {
    assert_eq!(last_answer(&["W 20 F FFFFFFFF", "R 20 F"]), "OK 0000FFC1");
}

#[test]
fn capability_pointer() {
    assert_eq!(last_answer(&["W 7C 8 01000000", "R 34 F"]), "OK 000000D0");
}

#[test]
fn power_state_01_is_not_stored() {
    assert_eq!(last_answer(&["W D4 1 00000001", "R D4 1"]), "OK FFFFFF00");
}

#[test]
fn power_state_11_is_stored() {
    let lines = ["W D4 1 00000001", "R D4 1", "W D4 1 00000003", "R D4 1"];
    assert_eq!(last_answer(&lines), "OK FFFFFF03");
}

#[test]
fn swsci_bit_15_closes() {
    let lines = ["W E8 2 00000000", "W E8 F 00008001", "R E8 F"];
    assert_eq!(last_answer(&lines), "OK 00000001");
}

#[test]
fn function_reset_does_not_reopen() {
    let lines = [
        "W 2C 3 00001234",
        "W A8 1 00000001",
        "E",
        "W 2C 3 0000FFFF",
        "R 2C 3",
    ];
    assert_eq!(last_answer(&lines), "OK FFFF1234");
}

#[test]
fn probe_of_the_aperture() {
    let range = Range {
        kind: Kind::Mem64,
        exponent: 28,
    };
    assert_eq!(probe(0xF000_000C, 0xFFFF_FFFF), Ok(range));
}

#[test]
fn ports() {
    let mut twin = Twin::fresh();
    assert_eq!(twin.port_write(0xCF8, 4, 0x8000_1000), Ok(()));
    assert_eq!(twin.port_read(0xCFE, 2), Ok(0x0152));
    assert_eq!(twin.port_read(0xCFF, 2), Err(Refusal::NotOurs));
}

#[test]
fn walks() {
    let twin = Twin::fresh();
    assert_eq!(
        twin.walk(0x13),
        Ok(Walk::Found {
            offset: 0xA4,
            count: 3
        })
    );
    assert_eq!(twin.walk(0x10), Ok(Walk::Absent { count: 3 }));
}
