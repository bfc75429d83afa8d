//! A lock, and a function reset that does not undo it.

use twin::{Refusal, Twin};

/// SVID2 is the low word of its dword; the lanes above it read FF.
fn svid2(t: &Twin) -> Result<u16, Refusal> {
    Ok(t.read(0x2C, 0x3)? as u16)
}

fn main() -> Result<(), Refusal> {
    let mut t = Twin::fresh();
    t.write(0x2C, 0x3, 0x1234)?; // SVID2 is written, and closed
    println!("locked: {:04X}", svid2(&t)?);
    t.write(0xA8, 0x1, 0x0001)?; // starts a function reset
    println!("while a reset runs: {:04X}", svid2(&t)?);
    t.end_signal(); // the host's part
    t.write(0x2C, 0x3, 0xFFFF)?; // accepted, and changes nothing
    println!("after a reset and another write: {:04X}", svid2(&t)?);
    match t.write(0x2D, 0x1, 0x00) {
        Ok(()) => println!("an unaligned write was taken"),
        Err(refusal) => println!("an unaligned write: {refusal}"),
    }
    Ok(())
}
