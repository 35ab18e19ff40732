//! The translator that keeps Sv39 tables in a pool of words.

use super::access::{Access, Kind, is_canonical};
use super::entry::Entry;
use super::faults::Fault;
use super::grants::{Fence, Grant};
use super::memory::{FRAME_WORDS, Memory, Outside};
use super::nested::Nested;
use super::roots::{GuestRoot, MAX_ASID, Roots};
use super::stages::World;
use super::translator::{Reply, Translator};
use super::walk::{Source, Table, walk};
use super::watch::{Silent, Watch};

const MIN_FRAMES: usize = 4;
const MAX_FRAMES: usize = 512;
/// The word of frame 0 that holds the next unused frame; the words before it hold the root of each ASID.
const NEXT: usize = MAX_ASID as usize + 1;

/// Tables in a pool of words. Frame 0 holds the roots, each further frame is a table or unused.
#[derive(Debug)]
struct Pool {
    words: Vec<u64>,
}

impl Source for Pool {
    type Fault = Outside;

    fn word(&self, index: u64) -> Result<u64, Outside> {
        self.words.get(index as usize).copied().ok_or(Outside)
    }
}

/// The word of a page in the table of a level that lies in a frame.
fn slot(frame: usize, page: u64, level: u8) -> usize {
    frame * FRAME_WORDS + (page >> (9 * level)) as usize % FRAME_WORDS
}

impl Pool {
    /// Tables in the whole frames of these words, at most 512; none if there are fewer than 4.
    fn new(words: Vec<u64>) -> Option<Self> {
        if words.len() < MIN_FRAMES * FRAME_WORDS {
            return None;
        }
        let mut pool = Self { words };
        pool.reset();
        Some(pool)
    }

    fn frames(&self) -> usize {
        (self.words.len() / FRAME_WORDS).min(MAX_FRAMES)
    }

    fn reset(&mut self) {
        self.words[..NEXT].fill(0);
        self.words[NEXT] = 1;
    }

    /// The root table of an ASID.
    fn root(&self, asid: u16) -> Option<usize> {
        match self.words[usize::from(asid)] {
            0 => None,
            frame => Some(frame as usize),
        }
    }

    /// The table that an entry points to.
    fn table_at(&self, slot: usize) -> Option<usize> {
        let entry = Entry(self.words[slot]);
        entry.any(Entry::V).then(|| entry.frame() as usize)
    }

    fn find(&self, asid: u16, page: u64) -> Option<Grant> {
        if !is_canonical(page) {
            return None;
        }
        let leaf = walk(self, Table::sv39(self.root(asid)? as u64), page).ok()?;
        Some(Grant {
            asid,
            page,
            frame: leaf.frame,
            read: leaf.entry.gives(Kind::Load),
            write: leaf.entry.gives(Kind::Store),
            fetch: leaf.entry.gives(Kind::Fetch),
            user: leaf.entry.any(Entry::U),
            global: false,
        })
    }

    /// How many of the three tables on the way to a page are missing.
    fn missing(&self, asid: u16, page: u64) -> usize {
        let Some(root) = self.root(asid) else { return 3 };
        let Some(middle) = self.table_at(slot(root, page, 2)) else { return 2 };
        let Some(_) = self.table_at(slot(middle, page, 1)) else { return 1 };
        0
    }

    fn unused(&self) -> usize {
        self.frames() - self.words[NEXT] as usize
    }

    /// Takes the next unused frame as an empty table.
    fn take(&mut self) -> usize {
        let frame = self.words[NEXT] as usize;
        self.words[NEXT] += 1;
        self.words[frame * FRAME_WORDS..][..FRAME_WORDS].fill(0);
        frame
    }

    fn root_or_new(&mut self, asid: u16) -> usize {
        self.root(asid).unwrap_or_else(|| {
            let frame = self.take();
            self.words[usize::from(asid)] = frame as u64;
            frame
        })
    }

    fn table_or_new(&mut self, slot: usize) -> usize {
        self.table_at(slot).unwrap_or_else(|| {
            let frame = self.take();
            self.words[slot] = Entry::new(frame as u64, Entry::V).0;
            frame
        })
    }

    /// Writes the leaf of a grant. There is room for the tables that are missing.
    fn insert(&mut self, grant: &Grant) {
        let root = self.root_or_new(grant.asid);
        let middle = self.table_or_new(slot(root, grant.page, 2));
        let low = self.table_or_new(slot(middle, grant.page, 1));
        self.words[slot(low, grant.page, 0)] = leaf(grant).0;
    }

    /// Clears the leaf of a page, if it has one.
    fn remove(&mut self, asid: u16, page: u64) {
        if let Some(slot) = self.leaf_slot(asid, page) {
            self.words[slot] = 0;
        }
    }

    fn leaf_slot(&self, asid: u16, page: u64) -> Option<usize> {
        if !is_canonical(page) {
            return None;
        }
        let middle = self.table_at(slot(self.root(asid)?, page, 2))?;
        let low = self.table_at(slot(middle, page, 1))?;
        Some(slot(low, page, 0))
    }

    fn fence(&mut self, fence: Fence) {
        match (fence.page, fence.asid) {
            (Some(page), Some(asid)) => self.remove(asid, page),
            (Some(page), None) => (0..=MAX_ASID).for_each(|asid| self.remove(asid, page)),
            (None, Some(asid)) => self.words[usize::from(asid)] = 0,
            (None, None) => self.reset(),
        }
    }
}

/// The leaf word of a grant.
fn leaf(grant: &Grant) -> Entry {
    let flag = |set: bool, flag: u64| if set { flag } else { 0 };
    let rights = flag(grant.read, Entry::R) | flag(grant.write, Entry::W) | flag(grant.fetch, Entry::X);
    Entry::new(grant.frame, Entry::V | Entry::A | Entry::D | rights | flag(grant.user, Entry::U))
}

#[derive(Debug)]
pub struct Shadow<W = Silent> {
    /// None where the pool handed in was too small.
    pool: Option<Pool>,
    pub watch: W,
}

impl Shadow {
    pub fn new(words: Vec<u64>) -> Self {
        Self::watched(words, Silent)
    }
}

impl<W: Watch> Shadow<W> {
    /// A shadow over these words that tells `watch` of its work.
    pub fn watched(words: Vec<u64>, watch: W) -> Self {
        Self { pool: Pool::new(words), watch }
    }

    /// The remembered grant that answers an access.
    fn serving(&self, roots: Roots, access: &Access) -> Option<Grant> {
        match roots.guest {
            GuestRoot::Sv39 { asid, .. } if access.is_aligned() => {
                self.pool.as_ref()?.find(asid, access.page()).filter(|grant| grant.serves(asid, access))
            }
            _ => None,
        }
    }

    fn learn(&mut self, grant: &Grant) {
        let Some(pool) = &mut self.pool else { return };
        if !grant.has_some_right() {
            return;
        }
        if pool.unused() < pool.missing(grant.asid, grant.page) {
            self.watch.ran_out();
            pool.reset();
        }
        pool.insert(grant);
    }
}

impl<W: Watch> Translator for Shadow<W> {
    fn access<M: Memory>(&mut self, world: &World<M>, access: &Access) -> Result<Reply, Fault> {
        if let Some(grant) = self.serving(world.roots, access) {
            self.watch.hit();
            return Ok(Reply { frame: grant.frame, grant: Some(grant) });
        }
        let reply = Nested.access(world, access)?;
        if let Some(grant) = &reply.grant {
            self.learn(grant);
        }
        Ok(reply)
    }

    fn guest_fence(&mut self, fence: Fence) {
        if let Some(pool) = &mut self.pool {
            pool.fence(fence);
        }
    }

    fn host_fence(&mut self) {
        if let Some(pool) = &mut self.pool {
            pool.reset();
        }
    }
}
