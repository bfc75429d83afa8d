//! The papers' refusal numbers, but for 10 and 11, which a walk carries
//! together with its count (see [`crate::walk`]).

/// Why an access was refused.
#[derive(Clone, Copy, Debug, PartialEq, Eq)]
pub enum Refusal {
    /// A walk's buffer isn't 256 bytes.
    Length,
    /// A port width isn't 1, 2 or 4.
    Width,
    /// A port access that isn't the function's, or data with the latch's bit 31 clear.
    NotOurs,
    /// A data access to another bus, device or function.
    OtherFunction,
    /// A direct offset above 255 or unaligned; a host offset above 255.
    Offset,
    /// Lanes above 15.
    Lanes,
    /// An update mask with a bit outside the host mask; a fault word or a
    /// completion with a bit outside its own.
    NotHost,
    /// A probe readback that names no range.
    NoRange,
    /// A session line of no known form.
    Line,
    /// A sheet that is empty, cut short, or longer than its last body.
    SheetLength,
    /// A sheet's number of entries or an entry that may not stand there.
    SheetContents,
    /// A sheet's body with masks that don't go together.
    SheetBody,
    /// A window offset above 3FFFFF or unaligned.
    WindowOffset,
}

impl Refusal {
    /// The number in the papers.
    pub fn number(self) -> u32 {
        match self {
            Refusal::Length => 1,
            Refusal::Width => 2,
            Refusal::NotOurs => 3,
            Refusal::OtherFunction => 4,
            Refusal::Offset => 5,
            Refusal::Lanes => 6,
            Refusal::NotHost => 7,
            Refusal::NoRange => 8,
            Refusal::Line => 9,
            Refusal::SheetLength => 12,
            Refusal::SheetContents => 13,
            Refusal::SheetBody => 14,
            Refusal::WindowOffset => 16,
        }
    }
}
