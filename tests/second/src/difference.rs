//! Where two programs' answers to the same session part.

use std::fmt;

/// Bytes of a line that are shown.
const SHOWN: usize = 120;

/// The first answer in which two outputs differ.
#[derive(Clone, Debug, PartialEq, Eq)]
pub struct Difference {
    /// The number of the session's line, from 1.
    pub number: usize,
    /// The session's line with its LF; none if the session has no such line.
    pub line: Option<Vec<u8>>,
    /// Our answer with its LF, if there is one.
    pub ours: Option<Vec<u8>>,
    /// The other program's answer with its LF, if there is one.
    pub theirs: Option<Vec<u8>>,
}

impl fmt::Display for Difference {
    fn fmt(&self, f: &mut fmt::Formatter<'_>) -> fmt::Result {
        writeln!(f, "line {}: {}", self.number, shown(&self.line))?;
        writeln!(f, "  second answers:  {}", shown(&self.ours))?;
        write!(f, "  program answers: {}", shown(&self.theirs))
    }
}

/// A line escaped and in quotes, cut if it is long.
fn shown(line: &Option<Vec<u8>>) -> String {
    match line {
        None => "(nothing)".to_string(),
        Some(line) if line.len() > SHOWN => {
            let start = line[..SHOWN].escape_ascii();
            format!("\"{start}\"... ({} bytes)", line.len())
        }
        Some(line) => format!("\"{}\"", line.escape_ascii()),
    }
}

/// The first difference of two outputs, if they aren't the same bytes.
pub fn difference(session: &[u8], ours: &[u8], theirs: &[u8]) -> Option<Difference> {
    if ours == theirs {
        return None;
    }
    let same = lines(ours)
        .zip(lines(theirs))
        .take_while(|(our, their)| our == their)
        .count();
    let at = |text| lines(text).nth(same).map(<[u8]>::to_vec);
    Some(Difference {
        number: same + 1,
        line: at(session),
        ours: at(ours),
        theirs: at(theirs),
    })
}

/// The lines of a text, each with its LF if it has one.
pub fn lines(text: &[u8]) -> impl Iterator<Item = &[u8]> {
    text.split_inclusive(|byte| *byte == b'\n')
}
