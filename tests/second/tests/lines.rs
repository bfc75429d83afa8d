//! Which lines are of a known form, and how answers look.

use second::line::Mode::{self, Console, Player};
use second::line::LONGEST_LINE;
use second::player::{answers, play, Player as OpenPlayer};

/// The answers to a session as text.
fn say(session: &[u8], mode: Mode) -> String {
    String::from_utf8(answers(session, mode)).unwrap()
}

const PLAYER_LINES: [&str; 6] = [
    "W FC F 89ABCDEF",
    "W 00 0 01234567",
    "R FC F",
    "H 02 FF 00",
    "P",
    "E",
];
const CONSOLE_LINES: [&str; 12] = [
    "O 0CF8 4 80001000",
    "I 0CF8 4",
    "A FEDCBA9876543210",
    "N 0CF8",
    "S F000000C FFFFFFFF",
    "K 13",
    "V 00810C F 89ABCDEF",
    "U 00810C F",
    "C 0000000F",
    "F 000077FE",
    "T 89ABCDEF",
    "Y 1080C0 FFF00001 89ABCDEF",
];

#[test]
fn every_form_is_known() {
    for line in PLAYER_LINES {
        assert!(say(line.as_bytes(), Player).starts_with("OK"), "{line}");
        assert!(say(line.as_bytes(), Console).starts_with("OK"), "{line}");
    }
    for line in CONSOLE_LINES {
        assert_eq!(say(line.as_bytes(), Player), "NO 9\n", "{line}");
        assert!(say(line.as_bytes(), Console).starts_with("OK"), "{line}");
    }
}

/// Whether the console refuses the line with 9.
fn refused(line: &[u8]) -> bool {
    say(line, Console) == "NO 9\n"
}

#[test]
fn every_byte_in_every_place() {
    for line in PLAYER_LINES.iter().chain(&CONSOLE_LINES) {
        for place in 1..line.len() {
            let was = line.as_bytes()[place];
            for byte in (0..=255).filter(|byte| *byte != b'\n') {
                let mut changed = line.as_bytes().to_vec();
                changed[place] = byte;
                let digit = matches!(byte, b'0'..=b'9' | b'A'..=b'F');
                let known = if was == b' ' { byte == b' ' } else { digit };
                assert_eq!(refused(&changed), !known, "{}", changed.escape_ascii());
            }
        }
    }
}

#[test]
fn every_byte_put_in_and_every_byte_left_out() {
    for line in PLAYER_LINES.iter().chain(&CONSOLE_LINES) {
        let line = line.as_bytes();
        for place in 0..=line.len() {
            for byte in (0..=255).filter(|byte| *byte != b'\n') {
                let longer = [&line[..place], &[byte], &line[place..]].concat();
                assert!(refused(&longer), "{}", longer.escape_ascii());
            }
        }
        for place in (0..line.len()).filter(|_| line.len() > 1) {
            let shorter = [&line[..place], &line[place + 1..]].concat();
            assert!(refused(&shorter), "{}", shorter.escape_ascii());
        }
    }
}

#[test]
fn every_other_letter() {
    for letter in (0..=255u8).filter(|letter| *letter != b'\n') {
        let known = b"WRHPEOIANSKVUCFTY".contains(&letter);
        let accepted = PLAYER_LINES
            .iter()
            .chain(&CONSOLE_LINES)
            .any(|line| !refused(&[&[letter], &line.as_bytes()[1..]].concat()));
        assert_eq!(accepted, known, "{letter:02X}");
    }
}

#[test]
fn malformed_lines() {
    for line in [
        "",
        " ",
        "X",
        "p",
        "P ",
        " P",
        "PP",
        "P\r",
        "\tP",
        "P\0",
        "e",
        "E ",
        " E",
        "EE",
        "E E",
        "E 0",
        "E 00",
        "E0",
        "E\r",
        "E\t",
        "\0E",
        "D",
        "F",
        "W",
        "R",
        "H",
        "w 04 F 00000000",
        "R 2c F",
        "R 2C f",
        "W 04 F 0000000a",
        "W 04 F  00000000",
        "W  04 F 00000000",
        " W 04 F 00000000",
        "W 04 F 00000000 ",
        "W 4 F 00000000",
        "W 004 F 00000000",
        "W 04 0F 00000000",
        "W 04 F 0000000",
        "W 04 F 000000000",
        "W 04 F",
        "W 04",
        "W 04 F 00000000\r",
        "W\t04\tF\t00000000",
        "W 04 F 0x000000",
        "W 04 F +0000000",
        "W 04 F -0000000",
        "W 04 10 0000000",
        "R 04",
        "R 04 F 0",
        "R +4 F",
        "R 04 ",
        "R  04 F",
        "H 02 FF",
        "H 02 FF 0",
        "H 002 FF 00",
        "H 02 FF 00 00",
        "H 02 FF 00\r",
        "W 04 F 0000_000",
        "W 04 F 0000000G",
        "W 04 F 0000000@",
        "W 04 F 0000000/",
        "W 04 F 0000000:",
        "W04F00000000",
        "R 04 F R 04 F",
        "R\u{A0}04 F",
    ] {
        for mode in [Player, Console] {
            assert_eq!(
                say(format!("{line}\n").as_bytes(), mode),
                "NO 9\n",
                "{line:?}"
            );
        }
    }
}

#[test]
fn malformed_console_lines() {
    for line in [
        "O CF8 4 80001000",
        "O 0CF8 04 80001000",
        "O 0CF8 4 8000100",
        "O 0CF8 4",
        "o 0CF8 4 80001000",
        "O 0cf8 4 80001000",
        "I 0CF8",
        "I 0CF8 4 0",
        "I 0CF8 G",
        "I 00CF8 4",
        "A 0",
        "A FEDCBA987654321",
        "A FEDCBA98765432100",
        "A fedcba9876543210",
        "A FEDCBA98 76543210",
        "N 0CF",
        "N 0CF8 ",
        "N",
        "S F000000C",
        "S F000000CFFFFFFFF",
        "S F000000C FFFFFFFF 0",
        "K 3",
        "K 013",
        "K",
        "K 1g",
    ] {
        assert!(refused(line.as_bytes()), "{line:?}");
    }
}

#[test]
fn malformed_window_lines() {
    for line in [
        "V 0810C F 000F000F",
        "V 00810C F 000F",
        "V 00810C F",
        "V 00810C 0F 000F000F",
        "V 00810C 000F000F",
        "V 0000810C F 000F000F",
        "V 00810c F 000F000F",
        "v 00810C F 000F000F",
        "V 00810C F 000F000F ",
        "V 00810C  F 000F000F",
        "U 0810C F",
        "U 810C F",
        "U 0000810C F",
        "U 00810C",
        "U 00810C ",
        "U 00810C f",
        "U 00810C G",
        "U 00810C 10",
        "U 00810C F 00000000",
        "U 0x810C F",
        "U",
        "C",
        "C F",
        "C 0F",
        "C 000000F",
        "C 00000000F",
        "C 0000000f",
        "C 0000000F 0000000F",
        "C 00810C 0000000F",
        "F",
        "F 77FE",
        "F 000077fe",
        "F 0000077FE",
        "F 000077FE\r",
        "F 004094 000077FE",
        "T",
        "T 1",
        "T 0000001",
        "T 100000000",
        "T +0000001",
        "T 138078 00000001",
        "Y",
        "Y 1080C0",
        "Y 1080C0 FFF00001",
        "Y 1080C0 FFF00001 ABC0000",
        "Y 1080C0 FFF00001 ABC000000",
        "Y 1080C0 FFF00001 ABC00000 ",
        "Y 1080C0 FFF00001 ABC00000 0",
        "Y 1080C0 01 01",
        "Y 1080C0 F FFF00001 ABC00000",
        "Y 10_0C0 FFF00001 ABC00000",
        "Y 001080C0 FFF00001 ABC00000",
        "Y 1080c0 FFF00001 ABC00000",
        "y 1080C0 FFF00001 ABC00000",
    ] {
        assert!(refused(line.as_bytes()), "{line:?}");
    }
}

#[test]
fn ends_of_input() {
    for (session, wanted) in [
        ("", ""),
        ("\n", "NO 9\n"),
        ("\n\n", "NO 9\nNO 9\n"),
        ("P", "OK\n"),
        ("P\n", "OK\n"),
        ("P\n\n", "OK\nNO 9\n"),
        ("\nP", "NO 9\nOK\n"),
        ("P\r\nP", "NO 9\nOK\n"),
        ("E", "OK\n"),
        ("E\nE\n", "OK\nOK\n"),
        ("E\r\nE", "NO 9\nOK\n"),
        ("P\rP", "NO 9\n"),
        ("R 00 F\nR 0", "OK 01528086\nNO 9\n"),
    ] {
        assert_eq!(say(session.as_bytes(), Player), wanted, "{session:?}");
    }
}

#[test]
fn very_long_lines() {
    for filling in [b' ', b'0', b'\0', b'\r', 0xFF] {
        let mut session = b"R 00 F".to_vec();
        session.resize(300_000, filling);
        session.extend_from_slice(b"\nR 00 F");
        assert_eq!(say(&session, Player), "NO 9\nOK 01528086\n");
    }
}

#[test]
fn the_longest_line() {
    let line = "Y 1080C0 FFF00001 89ABCDEF";
    assert_eq!((line.len(), LONGEST_LINE), (26, 26));
    for end in ["", "0", " ", "\0", "\r", "00"] {
        let session = format!("{line}{end}\nU 1080C0 F\n");
        let wanted = if end.is_empty() {
            "OK\nOK 89A00001\n"
        } else {
            "NO 9\nOK 00000000\n"
        };
        assert_eq!(say(session.as_bytes(), Console), wanted, "{session:?}");
    }
}

#[test]
fn a_refused_line_changes_nothing() {
    let session = "W 04 F 00000007\nW 04 F 00000000 \nW 05 F 00000000\nH 04 FF 00\nR 04 F\n";
    assert_eq!(
        say(session.as_bytes(), Player),
        "OK\nNO 9\nNO 5\nNO 7\nOK 00900007\n"
    );
}

#[test]
fn console_answers() {
    for (line, wanted) in [
        ("O 0CF8 4 FFFFFFFF\nI 0CF8 4", "OK\nOK 80FFFFFC\n"),
        ("O 0CF8 3 00000000", "NO 2\n"),
        ("I 0CF8 8", "NO 2\n"),
        ("I 0CFC 4", "NO 3\n"),
        (
            "O 0CF8 4 80001000\nI 0CFE 2\nI 0CFF 2",
            "OK\nOK 00000152\nNO 3\n",
        ),
        ("O 0CF8 4 80001800\nI 0CFC 1", "OK\nNO 4\n"),
        (
            "A 0000000000000000\nW 04 1 00000002\nA 0000000000000000",
            "OK NONE\nOK\nOK TRANSLATION 00000000\n",
        ),
        (
            "W 04 1 00000002\nA 000000000FFFFFFF",
            "OK\nOK APERTURE 0FFFFFFF\n",
        ),
        (
            "N 0000\nW 04 1 00000001\nN 003F\nN 0040",
            "OK NONE\nOK\nOK IO 0000003F\nOK NONE\n",
        ),
        ("S F000000C FFFFFFFF", "OK MEM64 1C\n"),
        ("S FFFFF000 00000000", "OK MEM32 0C\n"),
        ("S 0000FFC1 00000000", "OK IO 06\n"),
        ("S 0000000C 00000000\nS FFFFFFF2 FFFFFFFF", "NO 8\nNO 8\n"),
        ("K 13\nK 10", "OK FOUND A4 03\nOK ABSENT 03\n"),
        (
            "W 7C 8 01000000\nK 05\nK 01",
            "OK\nOK ABSENT 02\nOK FOUND D0 01\n",
        ),
        (
            "V 00810C F 00090009\nU 00810C F\nU 00810C 2",
            "OK\nOK 00000009\nOK FFFF00FF\n",
        ),
        ("U 00810D F\nV 400000 0 00000000", "NO 16\nNO 16\n"),
        ("C 0000000F\nC 00000010", "OK\nNO 7\n"),
        ("F 000077FE\nF 00007FFE", "OK\nNO 7\n"),
        ("T FFFFFFFF\nU 138078 F", "OK\nOK FFFFFFFF\n"),
        (
            "Y 1080C0 FFF00001 89ABCDEF\nU 1080C0 F",
            "OK\nOK 89A00001\n",
        ),
        (
            "Y 1080C0 FFF00003 89ABCDEF\nY 1080C2 FFF00003 89ABCDEF",
            "NO 7\nNO 16\n",
        ),
    ] {
        assert_eq!(say(line.as_bytes(), Console), wanted, "{line}");
    }
}

#[test]
fn pieces_do_not_matter() {
    let session = b"W 2C 3 00001234\nR 2C F\n\nP\r\nR 2C F\nP\nR 2C F";
    let whole = answers(session, Player);
    for size in 1..=session.len() {
        let mut player = OpenPlayer::new(Player);
        let mut said = Vec::new();
        session
            .chunks(size)
            .for_each(|piece| player.feed(piece, &mut said));
        player.finish(&mut said);
        assert_eq!(said, whole, "pieces of {size}");
    }
}

#[test]
fn streams_of_more_than_one_block() {
    let session = "R 00 F\nW 2C F 00000000\n".repeat(20_000);
    let mut output = Vec::new();
    play(&mut session.as_bytes(), &mut output, Player).unwrap();
    assert_eq!(output, "OK 01528086\nOK\n".repeat(20_000).as_bytes());
}
