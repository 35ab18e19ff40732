//! A layer of remembered grants over any translator.

use super::access::Access;
use super::faults::Fault;
use super::grants::{Fence, Grant};
use super::memory::Memory;
use super::roots::{GuestRoot, Roots};
use super::stages::World;
use super::translator::{Reply, Translator};
use super::watch::{Silent, Watch};

const SETS: usize = 16;
const WAYS: usize = 4;

#[derive(Clone, Copy, Debug, Default)]
struct Set {
    ways: [Option<Grant>; WAYS],
    /// The way to be replaced next.
    next: usize,
}

impl Set {
    fn serving(&self, asid: u16, access: &Access) -> Option<&Grant> {
        self.ways.iter().flatten().find(|grant| grant.serves(asid, access))
    }

    /// The way with this page and ASID, else an empty way.
    fn free_way(&self, grant: &Grant) -> Option<usize> {
        let alike = |way: &Option<Grant>| way.is_some_and(|old| old.page == grant.page && old.asid == grant.asid);
        self.ways.iter().position(alike).or_else(|| self.ways.iter().position(Option::is_none))
    }

    /// The way whose turn it is to be replaced.
    fn turn(&mut self) -> usize {
        let way = self.next;
        self.next = (way + 1) % WAYS;
        way
    }
}

#[derive(Debug)]
pub struct Tlb<T, W = Silent> {
    sets: [Set; SETS],
    pub below: T,
    pub watch: W,
}

fn set_of(page: u64) -> usize {
    page as usize % SETS
}

impl<T> Tlb<T> {
    pub fn new(below: T) -> Self {
        Self::watched(below, Silent)
    }
}

impl<T, W: Watch> Tlb<T, W> {
    /// An empty TLB that tells `watch` of its work.
    pub fn watched(below: T, watch: W) -> Self {
        Self { sets: [Set::default(); SETS], below, watch }
    }

    /// The first way that answers an access.
    fn find(&self, roots: Roots, access: &Access) -> Option<&Grant> {
        match roots.guest {
            GuestRoot::Sv39 { asid, .. } if access.is_aligned() => {
                self.sets[set_of(access.page())].serving(asid, access)
            }
            _ => None,
        }
    }

    fn fill(&mut self, grant: Grant) {
        let set = &mut self.sets[set_of(grant.page)];
        let way = set.free_way(&grant).unwrap_or_else(|| {
            self.watch.evicted();
            set.turn()
        });
        set.ways[way] = Some(grant);
    }

    fn ways(&mut self) -> impl Iterator<Item = &mut Option<Grant>> {
        self.sets.iter_mut().flat_map(|set| &mut set.ways)
    }
}

impl<T: Translator, W: Watch> Translator for Tlb<T, W> {
    fn access<M: Memory>(&mut self, world: &World<M>, access: &Access) -> Result<Reply, Fault> {
        if let Some(&grant) = self.find(world.roots, access) {
            self.watch.hit();
            return Ok(Reply { frame: grant.frame, grant: Some(grant) });
        }
        let reply = self.below.access(world, access)?;
        if let Some(grant) = reply.grant {
            self.fill(grant);
        }
        Ok(reply)
    }

    fn guest_fence(&mut self, fence: Fence) {
        for way in self.ways() {
            if way.is_some_and(|grant| fence.covers(&grant)) {
                *way = None;
            }
        }
        self.below.guest_fence(fence);
    }

    fn host_fence(&mut self) {
        self.ways().for_each(|way| *way = None);
        self.below.host_fence();
    }
}
