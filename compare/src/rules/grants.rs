//! Grants, and the fences that cover them.

use super::access::{Access, Kind};
use super::entry::Entry;
use super::roots::GuestRoot;
use super::stages::{Reached, host_gives};

/// What a translator remembers of the walk of one page.
#[derive(Clone, Copy, Debug, PartialEq, Eq)]
pub struct Grant {
    pub asid: u16,
    pub page: u64,
    pub frame: u64,
    pub read: bool,
    pub write: bool,
    pub fetch: bool,
    pub user: bool,
    pub global: bool,
}

impl Grant {
    /// The grant with every right that both leaves give, after a walk of a page; none where the guest is Bare.
    pub fn fullest(page: u64, root: GuestRoot, reached: &Reached) -> Option<Self> {
        let GuestRoot::Sv39 { asid, .. } = root else { return None };
        let leaf = reached.guest?;
        let both_give = |kind| leaf.entry.gives(kind) && reached.host.is_none_or(|host| host_gives(host, kind));
        Some(Self {
            asid,
            page,
            frame: reached.frame,
            read: both_give(Kind::Load),
            write: both_give(Kind::Store),
            fetch: both_give(Kind::Fetch),
            user: leaf.entry.any(Entry::U),
            global: leaf.global,
        })
    }

    /// Whether it answers an access under an ASID: it is of the page, and has the right.
    pub fn serves(&self, asid: u16, access: &Access) -> bool {
        let matches = self.page == access.page() && (self.global || self.asid == asid);
        matches && self.has_right(access.kind) && access.may_use(self.user)
    }

    pub fn has_right(&self, kind: Kind) -> bool {
        match kind {
            Kind::Load => self.read,
            Kind::Store => self.write,
            Kind::Fetch => self.fetch,
        }
    }

    pub fn has_some_right(&self) -> bool {
        self.read || self.write || self.fetch
    }
}

/// A guest fence; none stands for every page, or every ASID.
#[derive(Clone, Copy, Debug, PartialEq, Eq)]
pub struct Fence {
    pub page: Option<u64>,
    pub asid: Option<u16>,
}

impl Fence {
    pub fn covers(&self, grant: &Grant) -> bool {
        self.page.is_none_or(|page| page == grant.page)
            && self.asid.is_none_or(|asid| asid == grant.asid && !grant.global)
    }
}
