//! The session player over streams of bytes.

use std::io::{self, Read, Write};

use crate::line::{answer, Answer, Mode, LONGEST_LINE};
use crate::twin::Twin;

/// Bytes asked for in one read.
const BLOCK: usize = 1 << 16;

/// Bytes kept of an unended line: one more than any known form has, so that
/// a line that was cut here is refused like the whole of it.
const KEPT: usize = LONGEST_LINE + 1;

/// What the lines of a session are spoken to.
pub trait Listener {
    /// Carries out a line (without its LF) and answers it.
    fn answer(&mut self, line: &[u8]) -> Answer;
}

/// The twin, and which lines it knows.
pub struct ListeningTwin {
    mode: Mode,
    twin: Twin,
}

impl Listener for ListeningTwin {
    fn answer(&mut self, line: &[u8]) -> Answer {
        answer(&mut self.twin, line, self.mode)
    }
}

/// A player in the middle of a session.
pub struct Player<L> {
    listener: L,
    unended: Vec<u8>,
}

impl Player<ListeningTwin> {
    /// A player with a twin in its fresh state.
    pub fn new(mode: Mode) -> Player<ListeningTwin> {
        let twin = Twin::fresh();
        Player::with(ListeningTwin { mode, twin })
    }
}

impl<L: Listener> Player<L> {
    /// A player at the start of a session.
    pub fn with(listener: L) -> Player<L> {
        Player {
            listener,
            unended: Vec::with_capacity(KEPT),
        }
    }

    /// Takes the next bytes of input and adds the answers to the lines that end in them.
    pub fn feed(&mut self, mut bytes: &[u8], answers: &mut Vec<u8>) {
        while let Some(end) = bytes.iter().position(|byte| *byte == b'\n') {
            self.keep(&bytes[..end]);
            self.answer_line(answers);
            bytes = &bytes[end + 1..];
        }
        self.keep(bytes);
    }

    /// Takes the end of the input: a last line may lack its LF.
    pub fn finish(&mut self, answers: &mut Vec<u8>) {
        if !self.unended.is_empty() {
            self.answer_line(answers);
        }
    }

    /// The answers to a whole session held in memory.
    pub fn answers(mut self, session: &[u8]) -> Vec<u8> {
        let mut answers = Vec::new();
        self.feed(session, &mut answers);
        self.finish(&mut answers);
        answers
    }

    /// Plays a session from `input` to `output`. All answers that are due are
    /// written and flushed before the next read.
    pub fn play(mut self, input: &mut impl Read, output: &mut impl Write) -> io::Result<()> {
        let mut block = vec![0; BLOCK];
        let mut answers = Vec::new();
        loop {
            let length = read_some(input, &mut block)?;
            if length == 0 {
                self.finish(&mut answers);
            } else {
                self.feed(&block[..length], &mut answers);
            }
            output.write_all(&answers)?;
            output.flush()?;
            answers.clear();
            if length == 0 {
                return Ok(());
            }
        }
    }

    /// Adds bytes to the unended line, as far as they matter.
    fn keep(&mut self, bytes: &[u8]) {
        let room = KEPT - self.unended.len();
        self.unended.extend(bytes.iter().take(room));
    }

    /// Answers the line that has just ended.
    fn answer_line(&mut self, answers: &mut Vec<u8>) {
        let answer = self.listener.answer(&self.unended);
        answers.extend_from_slice(format!("{answer}\n").as_bytes());
        self.unended.clear();
    }
}

/// The answers of a fresh twin to a whole session held in memory.
pub fn answers(session: &[u8], mode: Mode) -> Vec<u8> {
    Player::new(mode).answers(session)
}

/// Plays a session on a fresh twin from `input` to `output`.
pub fn play(input: &mut impl Read, output: &mut impl Write, mode: Mode) -> io::Result<()> {
    Player::new(mode).play(input, output)
}

/// Reads what there is, waiting for at least one byte or the end (0).
fn read_some(input: &mut impl Read, block: &mut [u8]) -> io::Result<usize> {
    loop {
        match input.read(block) {
            Err(error) if error.kind() == io::ErrorKind::Interrupted => {}
            result => return result,
        }
    }
}
