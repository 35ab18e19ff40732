//! What is refused, and its numbers.

#[derive(Clone, Copy, Debug, PartialEq, Eq)]
pub enum Refusal {
    /// The image is not 1 to 4,096 whole frames, the first line is no header, or the two differ.
    Frames = 1,
    /// A guest root whose layout is broken.
    GuestRoot = 3,
    /// A host root whose layout is broken.
    HostRoot = 4,
    /// A host address that is not a multiple of 8, or outside the memory.
    HostAddress = 5,
    /// A call of the other side.
    OtherSide = 6,
    /// A guest fence of an ASID over 15.
    FenceAsid = 7,
    /// A line that is the text of no call.
    Unreadable = 8,
    /// Too many calls, or too little room for the report.
    Room = 9,
}

impl Refusal {
    pub fn number(self) -> u64 {
        self as u64
    }
}
