//! The capability walk.

use crate::refusal::Refusal;

/// Items that a walk visits at most.
const MOST_ITEMS: u8 = 48;

/// How a walk ended. Every case carries the number of items visited.
#[derive(Clone, Copy, Debug, PartialEq, Eq)]
pub enum Walk {
    /// The wanted ID stands at `offset`; the item counts as visited.
    Found { offset: u8, count: u8 },
    /// The list ended without the wanted ID.
    Absent { count: u8 },
    /// A pointer led to 04h to 3Ch (refusal 10).
    Pointer { count: u8 },
    /// Another pointer was pending after 48 items (refusal 11).
    Endless { count: u8 },
}

/// Walks the capability list in `bytes` for the ID `wanted`.
pub fn walk(bytes: &[u8], wanted: u8) -> Result<Walk, Refusal> {
    let bytes: &[u8; 256] = bytes.try_into().map_err(|_| Refusal::Length)?;
    let has_list = bytes[0x06] >> 4 & 1 == 1;
    if !has_list {
        return Ok(Walk::Absent { count: 0 });
    }
    Ok(follow(bytes, bytes[0x34], 0, wanted))
}

/// Goes on at `pointer` with `count` items behind.
fn follow(bytes: &[u8; 256], pointer: u8, count: u8, wanted: u8) -> Walk {
    let offset = pointer - pointer % 4;
    if offset == 0 {
        return Walk::Absent { count };
    }
    if offset <= 0x3C {
        return Walk::Pointer { count };
    }
    if count == MOST_ITEMS {
        return Walk::Endless { count };
    }
    let (id, next) = (bytes[usize::from(offset)], bytes[usize::from(offset) + 1]);
    if id == wanted {
        return Walk::Found {
            offset,
            count: count + 1,
        };
    }
    follow(bytes, next, count + 1, wanted)
}
