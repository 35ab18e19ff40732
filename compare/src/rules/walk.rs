//! The walk of one stage, over any source of table words.

use super::entry::{Entry, Step, low_bits};

/// Where a walk reads its table words.
pub trait Source {
    type Fault;

    fn word(&self, index: u64) -> Result<u64, Self::Fault>;
}

/// A table of three levels.
#[derive(Clone, Copy, Debug)]
pub struct Table {
    root: u64,
    root_bits: u32,
}

impl Table {
    /// A table whose root fills one frame.
    pub fn sv39(root: u64) -> Self {
        Self { root, root_bits: 9 }
    }

    /// A table whose root fills four frames.
    pub fn sv39x4(root: u64) -> Self {
        Self { root, root_bits: 11 }
    }

    fn index(self, page: u64, level: u8) -> u64 {
        let bits = if level == TOP { self.root_bits } else { 9 };
        page >> (9 * level) & ((1 << bits) - 1)
    }
}

const TOP: u8 = 2;

/// The leaf at which a walk ends.
#[derive(Clone, Copy, Debug)]
pub struct Leaf {
    pub entry: Entry,
    pub level: u8,
    pub frame: u64,
    /// Whether G is set in an entry on the path.
    pub global: bool,
}

#[derive(Clone, Copy, Debug, PartialEq, Eq)]
pub enum WalkFault<F> {
    /// The entry at this level stops the walk.
    Stopped { level: u8 },
    /// The entry at this level could not be read.
    Unread { level: u8, fault: F },
}

pub fn walk<S: Source>(source: &S, table: Table, page: u64) -> Result<Leaf, WalkFault<S::Fault>> {
    let mut level = TOP;
    let mut table_frame = table.root;
    let mut global = false;
    loop {
        let index = table_frame * 512 + table.index(page, level);
        let word = source.word(index).map_err(|fault| WalkFault::Unread { level, fault })?;
        let entry = Entry(word);
        global |= entry.any(Entry::G);
        match entry.step(level) {
            Step::Stop => return Err(WalkFault::Stopped { level }),
            Step::Descend => {
                table_frame = entry.frame();
                level -= 1;
            }
            Step::Leaf => {
                let frame = entry.frame() | page & low_bits(level);
                return Ok(Leaf { entry, level, frame, global });
            }
        }
    }
}
