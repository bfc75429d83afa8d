//! Lines that aren't of any known form, made by spoiling lines that are.
//!
//! Now and then a spoiled line is of a known form all the same; it is then
//! answered like any other.

use crate::rng::Rng;

/// A very long line has at most this many bytes more than the line it is made of.
const VERY_LONG: usize = 100_000;

/// Characters just outside the upper-case hex digits, and others that
/// lenient readers of numbers take.
const NEAR_DIGITS: &[u8] = b"/:@G`gafxX+-_.,hH";

/// Bytes that a line reader may drop, split at or stop at.
const ODD_BYTES: &[u8] = b"\r\t\0\x0B\x0C\x1A\x1B\x7F\x80\x85\xA0\xC2\xC3\xE2\xFF\xFE";

/// Spoils a line in one of many ways.
pub fn spoil(rng: &mut Rng, line: &[u8]) -> Vec<u8> {
    if rng.one_in(300) {
        return very_long(rng, line);
    }
    match rng.below(20) {
        0 => line.to_ascii_lowercase(),
        1 => lower_one(rng, line),
        2 => double_a_space(rng, line),
        3 => [b" ", line].concat(),
        4 => [line, b" "].concat(),
        5 => drop_a_byte(rng, line),
        6 => insert(rng, line, b"0123456789ABCDEF"),
        7 => [line, b"\r"].concat(),
        8 => replace_a_space(rng, line),
        9 => insert(rng, line, ODD_BYTES),
        10 => replace(rng, line, NEAR_DIGITS),
        11 => insert(rng, line, NEAR_DIGITS),
        12 => Vec::new(),
        13 => line[..rng.index(line.len() + 1)].to_vec(),
        14 => drop_a_field(rng, line),
        15 => [line, b" ", line].concat(),
        16 => other_letter(rng, line),
        17 => any_bytes(rng),
        18 => replace(rng, line, ODD_BYTES),
        _ => with_separator(rng, line),
    }
}

/// A line of up to some 100,000 bytes that starts like a good one.
fn very_long(rng: &mut Rng, line: &[u8]) -> Vec<u8> {
    let filling = rng.pick(b" 0F\0\r\tX\xFF");
    let length = rng.index(VERY_LONG) + 1;
    let mut long = line.to_vec();
    long.resize(line.len() + length, filling);
    long
}

/// Makes one letter lower-case.
fn lower_one(rng: &mut Rng, line: &[u8]) -> Vec<u8> {
    let letters: Vec<usize> = places(line, |byte| byte.is_ascii_uppercase());
    let mut spoiled = line.to_vec();
    if !letters.is_empty() {
        let place = rng.pick(&letters);
        spoiled[place] = spoiled[place].to_ascii_lowercase();
    }
    spoiled
}

/// Doubles one of the spaces; a line without any gets one before it.
fn double_a_space(rng: &mut Rng, line: &[u8]) -> Vec<u8> {
    let spaces = places(line, |byte| byte == b' ');
    let place = if spaces.is_empty() {
        0
    } else {
        rng.pick(&spaces)
    };
    let mut spoiled = line.to_vec();
    spoiled.insert(place, b' ');
    spoiled
}

/// Puts a tab or another byte, or nothing, for one of the spaces.
fn replace_a_space(rng: &mut Rng, line: &[u8]) -> Vec<u8> {
    let spaces = places(line, |byte| byte == b' ');
    if spaces.is_empty() {
        return [line, b"\t"].concat();
    }
    let place = rng.pick(&spaces);
    let instead: &[u8] = rng.pick(&[b"\t", b"\0", b"_", b"", b",", b"\xA0", b"\r"]);
    [&line[..place], instead, &line[place + 1..]].concat()
}

/// Leaves out one byte.
fn drop_a_byte(rng: &mut Rng, line: &[u8]) -> Vec<u8> {
    let mut spoiled = line.to_vec();
    if !spoiled.is_empty() {
        spoiled.remove(rng.index(line.len()));
    }
    spoiled
}

/// Puts one of the choices somewhere into the line.
fn insert(rng: &mut Rng, line: &[u8], choices: &[u8]) -> Vec<u8> {
    let mut spoiled = line.to_vec();
    spoiled.insert(rng.index(line.len() + 1), rng.pick(choices));
    spoiled
}

/// Puts one of the choices in the place of some byte.
fn replace(rng: &mut Rng, line: &[u8], choices: &[u8]) -> Vec<u8> {
    let mut spoiled = line.to_vec();
    if !spoiled.is_empty() {
        spoiled[rng.index(line.len())] = rng.pick(choices);
    }
    spoiled
}

/// Leaves out one field or the letter.
fn drop_a_field(rng: &mut Rng, line: &[u8]) -> Vec<u8> {
    let mut fields: Vec<&[u8]> = line.split(|byte| *byte == b' ').collect();
    fields.remove(rng.index(fields.len()));
    fields.join(&b' ')
}

/// Puts any other letter in the place of the command's.
fn other_letter(rng: &mut Rng, line: &[u8]) -> Vec<u8> {
    let letter = b'A' + rng.below(26) as u8;
    match line.split_first() {
        Some((_, rest)) => [&[letter], rest].concat(),
        None => vec![letter],
    }
}

/// Up to 30 bytes of any value but LF.
fn any_bytes(rng: &mut Rng) -> Vec<u8> {
    let length = rng.index(31);
    (0..length)
        .map(|_| rng.byte())
        .map(|byte| if byte == b'\n' { b'\r' } else { byte })
        .collect()
}

/// Ends the line in a separator, a comment or a second command.
fn with_separator(rng: &mut Rng, line: &[u8]) -> Vec<u8> {
    let end: &[u8] = rng.pick(&[
        b";", b" #", b";P", b" P", b"\rP", b"\0P", b" E", b"\rE", b" \t", b"\x0C",
    ]);
    [line, end].concat()
}

/// Where in the line such bytes stand.
fn places(line: &[u8], such: impl Fn(u8) -> bool) -> Vec<usize> {
    (0..line.len()).filter(|place| such(line[*place])).collect()
}
