//! Accesses of a guest.

#[derive(Clone, Copy, Debug, PartialEq, Eq)]
pub enum Kind {
    Load,
    Store,
    Fetch,
}

#[derive(Clone, Copy, Debug, PartialEq, Eq)]
pub enum Mode {
    Supervisor,
    User,
}

/// A load, store or fetch of one word at a guest-virtual address.
#[derive(Clone, Copy, Debug, PartialEq, Eq)]
pub struct Access {
    pub kind: Kind,
    pub mode: Mode,
    pub sum: bool,
    pub mxr: bool,
    pub va: u64,
}

impl Access {
    pub fn is_aligned(&self) -> bool {
        self.va.is_multiple_of(8)
    }

    pub fn page(&self) -> u64 {
        page_of(self.va)
    }

    /// Whether the mode and SUM let the access at a page whose U is `user`.
    pub fn may_use(&self, user: bool) -> bool {
        match self.mode {
            Mode::User => user,
            Mode::Supervisor => !user || (self.sum && self.kind != Kind::Fetch),
        }
    }
}

/// The page of an address.
pub fn page_of(address: u64) -> u64 {
    address >> 12
}

/// Whether bits 51 to 27 of a page equal bit 26, which is bits 63 to 39 of an address and bit 38.
pub fn is_canonical(page: u64) -> bool {
    let upper = page >> 26;
    upper == 0 || upper == (1 << 26) - 1
}
