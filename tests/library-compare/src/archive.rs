//! The archive, called through the Rust bindings.

use library_compare::call::Call;
use library_compare::lent::Lent;
use twin::{raw, Twin};

/// The archive's answer. A function that answers a number alone, or nothing,
/// is taken as one whose value is 0.
pub fn answer(lent: &mut Lent, call: &mut Call) -> u64 {
    let s = lent.pointer().cast::<Twin>();
    // SAFETY: a whole record, aligned, that nothing else uses; and as many
    // bytes as the length says.
    unsafe {
        match call {
            Call::PlatformReset => {
                raw::twin_platform_reset(s);
                0
            }
            Call::Write(offset, lanes, value) => {
                u64::from(raw::twin_write(s, *offset, *lanes, *value)) << 48
            }
            Call::WriteByValue(offset, lanes, value) => {
                u64::from(raw::twin_write_by_value(s, *offset, *lanes, *value)) << 48
            }
            Call::Read(offset, lanes) => raw::twin_read(s, *offset, *lanes),
            Call::Do(op, a, b, c) => raw::twin_do(s, *op, *a, *b, *c),
            Call::Probe(low, high) => raw::twin_probe(*low, *high),
            Call::Walk(bytes, wanted) => raw::twin_walk(bytes.as_ptr(), bytes.len(), *wanted),
        }
    }
}
