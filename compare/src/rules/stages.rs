//! The two-stage walk of an access.

use super::access::{Access, Kind, is_canonical, page_of};
use super::entry::Entry;
use super::faults::{Fault, GuestFault, HostFault, Reason, Unreached};
use super::memory::{Memory, Outside};
use super::roots::{GuestRoot, HostRoot, Roots};
use super::walk::{Leaf, Source, Table, walk};

/// What an access is judged by.
pub struct World<'a, M> {
    pub memory: &'a M,
    pub roots: Roots,
}

/// What a granted access comes to.
pub struct Reached {
    /// The frame of host memory.
    pub frame: u64,
    /// The guest's leaf, none where the guest is Bare.
    pub guest: Option<Leaf>,
    /// The host's leaf, none where the host is Bare.
    pub host: Option<Entry>,
}

/// The way of one guest-physical address through the host stage.
struct HostPath {
    frame: u64,
    leaf: Option<Entry>,
}

/// The word of an address in its page, in a frame, as a place in host memory.
pub fn word_in(frame: u64, address: u64) -> u64 {
    frame * 512 + (address >> 3 & 511)
}

/// Host memory as a source of the host's table words.
struct HostTables<'a, M>(&'a M);

impl<M: Memory> Source for HostTables<'_, M> {
    type Fault = Outside;

    fn word(&self, index: u64) -> Result<u64, Outside> {
        self.0.read(index)
    }
}

/// Guest memory as a source of the guest's table words: each is loaded through the host stage.
struct GuestTables<'a, 'm, M>(&'a World<'m, M>);

impl<M: Memory> Source for GuestTables<'_, '_, M> {
    type Fault = Unreached;

    fn word(&self, index: u64) -> Result<u64, Unreached> {
        let gpa = index * 8;
        self.0.host_load(gpa).map_err(|fault| Unreached { gpa, fault })
    }
}

impl<M: Memory> World<'_, M> {
    /// What the walk of an access comes to.
    pub fn translate(&self, access: &Access) -> Result<Reached, Fault> {
        self.stages(access).map_err(|reason| Fault { kind: access.kind, va: access.va, reason })
    }

    fn stages(&self, access: &Access) -> Result<Reached, Reason> {
        if !access.is_aligned() {
            return Err(Reason::Unaligned);
        }
        let (gpa, guest) = match self.roots.guest {
            GuestRoot::Bare => (access.va, None),
            GuestRoot::Sv39 { frame, .. } => {
                let leaf = self.guest_stage(access, frame).map_err(Reason::Guest)?;
                (leaf.frame << 12 | access.va & 0xfff, Some(leaf))
            }
        };
        let path = self.host_reach(gpa, access.kind).map_err(|fault| Reason::Final(Unreached { gpa, fault }))?;
        Ok(Reached { frame: path.frame, guest, host: path.leaf })
    }

    fn guest_stage(&self, access: &Access, root: u64) -> Result<Leaf, GuestFault> {
        let page = access.page();
        if !is_canonical(page) {
            return Err(GuestFault::NotCanonical);
        }
        let leaf = walk(&GuestTables(self), Table::sv39(root), page).map_err(GuestFault::Walk)?;
        if guest_allows(leaf.entry, access) { Ok(leaf) } else { Err(GuestFault::Denied { level: leaf.level }) }
    }

    fn host_stage(&self, gpa: u64, kind: Kind) -> Result<HostPath, HostFault> {
        let page = page_of(gpa);
        let HostRoot::Sv39x4 { frame } = self.roots.host else {
            return Ok(HostPath { frame: page, leaf: None });
        };
        if gpa >> 41 != 0 {
            return Err(HostFault::OutOfRange);
        }
        let leaf = walk(&HostTables(self.memory), Table::sv39x4(frame), page).map_err(HostFault::Walk)?;
        if host_gives(leaf.entry, kind) {
            Ok(HostPath { frame: leaf.frame, leaf: Some(leaf.entry) })
        } else {
            Err(HostFault::Denied { level: leaf.level })
        }
    }

    fn host_load(&self, gpa: u64) -> Result<u64, HostFault> {
        let path = self.host_stage(gpa, Kind::Load)?;
        self.memory.read(word_in(path.frame, gpa)).map_err(|Outside| HostFault::Outside)
    }

    fn host_reach(&self, gpa: u64, kind: Kind) -> Result<HostPath, HostFault> {
        let path = self.host_stage(gpa, kind)?;
        if word_in(path.frame, gpa) < self.memory.words() { Ok(path) } else { Err(HostFault::Outside) }
    }
}

/// Whether a leaf of the guest allows an access.
fn guest_allows(leaf: Entry, access: &Access) -> bool {
    let by_mxr = access.mxr && access.kind == Kind::Load && leaf.all(Entry::A | Entry::X);
    (leaf.gives(access.kind) || by_mxr) && access.may_use(leaf.any(Entry::U))
}

/// Whether a leaf of the host allows a kind of access.
pub fn host_gives(leaf: Entry, kind: Kind) -> bool {
    leaf.any(Entry::U) && leaf.gives(kind)
}
