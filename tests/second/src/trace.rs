//! Recorded port traces as console lines.

/// The console line (without its LF) of a trace line such as
/// `write 0xcf8 4 0x80000000` or `read 0xcfc 2 0x8086`.
///
/// What a read was answered when it was recorded is checked for its form and
/// then left out; the record gives some 2-byte reads as `0xffffffff`. A line
/// of any other form is an error.
pub fn console_line(line: &str) -> Result<String, String> {
    let parts: Vec<&str> = line.split(' ').collect();
    let (verb, port, width, value) = match parts.as_slice() {
        [verb, port, width, value] => (verb, port, width, value),
        _ => return Err(format!("not four fields: {line:?}")),
    };
    let port = hex(port, 0xFFFF).ok_or_else(|| format!("not a port: {port:?}"))?;
    let width = bytes(width).ok_or_else(|| format!("not a width: {width:?}"))?;
    let value = hex(value, u32::MAX).ok_or_else(|| format!("not a value: {value:?}"))?;
    match *verb {
        "write" => Ok(format!("O {port:04X} {width} {value:08X}")),
        "read" => Ok(format!("I {port:04X} {width}")),
        _ => Err(format!("neither read nor write: {verb:?}")),
    }
}

/// A number written as `0x` and lower-case hex digits, not above `most`.
fn hex(text: &str, most: u32) -> Option<u32> {
    let digits = text.strip_prefix("0x")?;
    if !digits
        .bytes()
        .all(|byte| matches!(byte, b'0'..=b'9' | b'a'..=b'f'))
    {
        return None;
    }
    u32::from_str_radix(digits, 16)
        .ok()
        .filter(|number| *number <= most)
}

/// A width in bytes.
fn bytes(text: &str) -> Option<u32> {
    match text {
        "1" => Some(1),
        "2" => Some(2),
        "4" => Some(4),
        _ => None,
    }
}
