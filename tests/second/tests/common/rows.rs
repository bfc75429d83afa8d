//! Sessions as rows: a line and the answer that is wanted.

use second::line::Mode;
use second::player;

/// Holds the answers to a session to the wanted ones.
pub fn check(rows: &[(&str, &str)], answers: impl FnOnce(&[u8]) -> Vec<u8>) {
    let session: String = rows.iter().map(|(line, _)| format!("{line}\n")).collect();
    let said = String::from_utf8(answers(session.as_bytes())).unwrap();
    let said: Vec<&str> = said.lines().collect();
    assert_eq!(said.len(), rows.len());
    for (index, (line, wanted)) in rows.iter().enumerate() {
        assert_eq!(said[index], *wanted, "line {index}: {line}");
    }
}

/// Holds the answers of a fresh twin to the wanted ones.
pub fn check_twin(mode: Mode, rows: &[(&str, &str)]) {
    check(rows, |session| player::answers(session, mode));
}
