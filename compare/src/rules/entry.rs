//! Table entries.

use super::access::Kind;

/// A word of a table.
#[derive(Clone, Copy, Debug, PartialEq, Eq)]
pub struct Entry(pub u64);

/// What a walk does on reading an entry.
#[derive(Clone, Copy, Debug, PartialEq, Eq)]
pub enum Step {
    Stop,
    Descend,
    Leaf,
}

impl Entry {
    pub const V: u64 = 1 << 0;
    pub const R: u64 = 1 << 1;
    pub const W: u64 = 1 << 2;
    pub const X: u64 = 1 << 3;
    pub const U: u64 = 1 << 4;
    pub const G: u64 = 1 << 5;
    pub const A: u64 = 1 << 6;
    pub const D: u64 = 1 << 7;
    const FRAME_BITS: u32 = 44;
    const RESERVED: u64 = !0 << 54;

    /// An entry with these flags and this frame number.
    pub fn new(frame: u64, flags: u64) -> Self {
        Self(frame << 10 | flags)
    }

    /// Whether any of these flags is set.
    pub fn any(self, flags: u64) -> bool {
        self.0 & flags != 0
    }

    /// Whether each of these flags is set.
    pub fn all(self, flags: u64) -> bool {
        self.0 & flags == flags
    }

    pub fn frame(self) -> u64 {
        self.0 >> 10 & ((1 << Self::FRAME_BITS) - 1)
    }

    /// The right of a leaf for a kind of access, with A, and D for a store.
    pub fn gives(self, kind: Kind) -> bool {
        self.all(match kind {
            Kind::Load => Self::A | Self::R,
            Kind::Store => Self::A | Self::W | Self::D,
            Kind::Fetch => Self::A | Self::X,
        })
    }

    /// What a walk does that reads this entry at a level.
    pub fn step(self, level: u8) -> Step {
        let malformed = !self.any(Self::V) || (self.any(Self::W) && !self.any(Self::R)) || self.any(Self::RESERVED);
        let stops = if malformed {
            true
        } else if self.is_pointer() {
            level == 0 || self.any(Self::U | Self::A | Self::D)
        } else {
            self.frame() & low_bits(level) != 0
        };
        match (stops, self.is_pointer()) {
            (true, _) => Step::Stop,
            (false, true) => Step::Descend,
            (false, false) => Step::Leaf,
        }
    }

    fn is_pointer(self) -> bool {
        !self.any(Self::R | Self::X)
    }
}

/// The bits of a page number that lie below the index of a level.
pub fn low_bits(level: u8) -> u64 {
    (1 << (9 * level)) - 1
}
