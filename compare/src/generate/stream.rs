//! The lines of a trace, chosen so that most accesses of a guest are granted and many are remembered.

use super::rng::Rng;
use super::scene::{Scene, Slot, is_mostly_user, spoilt};
use super::text::{self, Rights};

#[derive(Clone, Copy)]
enum Act {
    Access,
    Probe,
    Fence,
    Root,
    Cross,
    Edit,
    HostLoad,
    HostFence,
    OtherSide,
}

/// Writes lines, and keeps in mind what a reader of them would know.
pub struct Stream<'a> {
    rng: &'a mut Rng,
    scene: &'a Scene,
    pub lines: Vec<Vec<u8>>,
    on_guest: bool,
    bare: bool,
    asids: Vec<u64>,
    asid: u64,
    recent: Vec<u64>,
    /// Table words that are not as they were meant.
    changed: Vec<Slot>,
    /// The offset at which pages are mostly looked at.
    mark: u64,
}

/// Offsets in a page at which no table has an entry of use.
const OFFSETS: [u64; 4] = [0x60, 0x68, 0x348, 0xf00];
/// How many pages are kept in mind to be used again.
const RECENT: usize = 12;
const PAGED: u64 = 8 << 60;

impl<'a> Stream<'a> {
    pub fn new(rng: &'a mut Rng, scene: &'a Scene) -> Self {
        let count = rng.range(1, 5) as usize;
        let asids = rng.some(&[0, 1, 2, 7, 8, 15], count);
        Self {
            asid: asids[0],
            mark: rng.pick(&OFFSETS),
            rng,
            scene,
            lines: Vec::new(),
            on_guest: false,
            bare: true,
            asids,
            recent: Vec::new(),
            changed: Vec::new(),
        }
    }

    fn line(&mut self, line: impl Into<Vec<u8>>) {
        self.lines.push(line.into());
    }

    /// Host stores of every table word, and of a word to tell each frame by, for a memory of zeros.
    pub fn set_up(&mut self) {
        for slot in &self.scene.slots {
            self.line(text::host_store(slot.pa, slot.word));
        }
        for frame in 0..self.scene.frames.min(24) {
            self.line(text::host_store(frame * 4_096 + self.mark, 0x1000 + frame));
        }
    }

    /// Gives both roots and enters, as a rule.
    pub fn begin(&mut self) {
        if self.rng.percent(95) {
            let register = self.sound_host_root();
            self.line(text::host_root(register));
        }
        if self.rng.percent(95) {
            self.cross();
            self.guest_root();
        }
    }

    pub fn act(&mut self) {
        let act = if self.on_guest {
            self.rng.weighted(&[
                (62, Act::Access),
                (8, Act::Probe),
                (8, Act::Fence),
                (6, Act::Root),
                (6, Act::Cross),
                (7, Act::Edit),
                (2, Act::OtherSide),
            ])
        } else {
            self.rng.weighted(&[
                (35, Act::Edit),
                (12, Act::HostLoad),
                (8, Act::Root),
                (8, Act::HostFence),
                (34, Act::Cross),
                (3, Act::OtherSide),
            ])
        };
        self.perform(act);
    }

    fn perform(&mut self, act: Act) {
        match act {
            Act::Access => self.access(),
            Act::Probe => self.probe(),
            Act::Fence => self.guest_fence(),
            Act::Root if self.on_guest => self.guest_root(),
            Act::Root => self.host_root(),
            Act::Cross => {
                self.cross();
                if !self.on_guest && self.changed.len() <= 8 && self.rng.percent(75) {
                    self.repair();
                }
            }
            Act::Edit if self.on_guest => self.guest_edit(),
            Act::Edit => self.host_edit(),
            Act::HostLoad => {
                let pa = self.host_address();
                self.line(text::host_load(pa));
            }
            Act::HostFence => self.line(text::HOST_FENCE),
            Act::OtherSide => self.other_side(),
        }
    }

    fn cross(&mut self) {
        self.on_guest = !self.on_guest;
        self.line(if self.on_guest { text::ENTER } else { text::LEAVE });
    }

    fn host_address(&mut self) -> u64 {
        let bytes = self.scene.frames * 4_096;
        match self.rng.below(20) {
            0 => bytes,
            1 => bytes - 8,
            2 => self.rng.next(),
            3 => self.rng.below(bytes),
            4..=9 => self.rng.pick(&self.scene.slots).pa,
            _ => self.rng.below(bytes / 8) * 8,
        }
    }

    /// A table word to edit, with a new word.
    fn edit(&mut self) -> Slot {
        let slot = self.rng.pick(&self.scene.slots);
        let word = match self.rng.below(20) {
            0..=7 => return slot,
            8..=10 => spoilt(self.rng, slot.word),
            11 => self.rng.pick(&self.scene.slots).word,
            12..=18 => {
                let frame = self.rng.below(self.scene.frames);
                let frame = self.scene.guest_frame(self.rng, frame);
                slot.word & 0x3ff | frame << 10
            }
            _ => self.rng.next(),
        };
        self.changed.push(slot);
        Slot { word, ..slot }
    }

    /// Puts table words back as they were meant.
    fn repair(&mut self) {
        for slot in std::mem::take(&mut self.changed) {
            self.line(text::host_store(slot.pa, slot.word));
        }
    }

    fn host_edit(&mut self) {
        let Slot { pa, word } =
            if self.rng.percent(10) { Slot { pa: self.host_address(), word: self.rng.next() } } else { self.edit() };
        self.line(text::host_store(pa, word));
    }

    /// A guest store at a table word, where some page shows its frame.
    fn guest_edit(&mut self) {
        let slot = self.edit();
        let frame = slot.pa / 4_096;
        let page = if self.bare {
            Some(self.scene.guest_frame(self.rng, frame))
        } else {
            self.scene.views.iter().find(|view| view.frame == frame).map(|view| view.page)
        };
        let Some(page) = page else { return self.access() };
        let rights = Rights { mode: 's', sum: true, mxr: false };
        self.line(text::store(rights, page << 12 | slot.pa & 0xfff, slot.word));
    }

    fn host_root(&mut self) {
        if self.rng.percent(20) {
            let sound = self.sound_host_root();
            let register = self.odd_register(sound);
            self.line(text::host_root(register));
            if self.rng.percent(20) {
                return;
            }
        }
        let register = if self.rng.percent(5) { 0 } else { self.sound_host_root() };
        self.line(text::host_root(register));
    }

    fn sound_host_root(&mut self) -> u64 {
        match self.scene.host_roots.as_slice() {
            [] => 0,
            roots => PAGED | self.rng.pick(roots),
        }
    }

    fn guest_root(&mut self) {
        if self.rng.percent(40) {
            self.asid = self.rng.pick(&self.asids);
        }
        let sound = self.sound_guest_root();
        self.bare = self.rng.percent(5);
        if self.bare {
            return self.line(text::guest_root(0));
        }
        if self.rng.percent(15) {
            let register = self.odd_register(sound);
            self.line(text::guest_root(register));
            if self.rng.percent(20) {
                return;
            }
        }
        self.line(text::guest_root(sound));
    }

    fn sound_guest_root(&mut self) -> u64 {
        PAGED | self.asid << 44 | self.rng.pick(&self.scene.guest_roots)
    }

    /// A register that differs a little from a sound one, and may be refused.
    fn odd_register(&mut self, sound: u64) -> u64 {
        match self.rng.below(8) {
            0 => sound ^ 1 << self.rng.below(64),
            1 => sound & !0 >> 4 | self.rng.below(16) << 60,
            2 => sound | self.rng.below(0x1_0000) << 44,
            3 => sound ^ self.rng.below(8),
            4 => self.rng.next(),
            5 => 1 << self.rng.below(60),
            6 => sound | 1 << self.rng.range(20, 44),
            _ => sound ^ 0x10 << 44,
        }
    }

    fn offset(&mut self) -> u64 {
        match self.rng.below(20) {
            0..=12 => self.mark,
            13..=18 => self.rng.pick(&OFFSETS),
            _ => self.rng.below(512) * 8,
        }
    }

    fn address(&mut self) -> u64 {
        let offset = self.offset();
        if self.bare && self.rng.percent(85) {
            let frame = self.rng.below(self.scene.frames + 1);
            return self.scene.guest_frame(self.rng, frame) << 12 | offset;
        }
        match self.rng.below(100) {
            0..=57 if !self.recent.is_empty() => self.rng.pick(&self.recent) << 12 | offset,
            0..=89 => {
                let page = self.scene.page(self.rng);
                self.remember(page);
                page << 12 | offset
            }
            90..=92 => self.not_canonical() | offset,
            93..=95 => self.scene.page(self.rng) << 12 | self.rng.below(4_096),
            96..=97 => self.rng.below(self.scene.frames + 1) << 12 | offset,
            _ => self.rng.next() & !7,
        }
    }

    /// The address of a page with one of the upper bits turned.
    fn not_canonical(&mut self) -> u64 {
        self.scene.page(self.rng) << 12 ^ 1 << self.rng.range(38, 64)
    }

    fn remember(&mut self, page: u64) {
        if self.recent.len() < RECENT {
            self.recent.push(page);
        } else {
            let place = self.rng.index(RECENT);
            self.recent[place] = page;
        }
    }

    fn access(&mut self) {
        let va = self.address();
        let mode = self.mode(va);
        let rights = Rights { mode, sum: self.rng.percent(50), mxr: self.rng.percent(50) };
        let line = match self.rng.below(10) {
            0..=5 => text::load(rights, va),
            6..=7 => text::fetch(rights, va),
            _ => {
                let data = if self.rng.percent(50) { self.rng.next() } else { self.rng.pick(&self.scene.slots).word };
                text::store(rights, va, data)
            }
        };
        self.line(line);
    }

    /// Mostly the mode that the page of an address is made for.
    fn mode(&mut self, va: u64) -> char {
        if is_mostly_user(va >> 12) == self.rng.percent(90) { 'u' } else { 's' }
    }

    fn guest_fence(&mut self) {
        let va = match self.rng.below(10) {
            0..=2 => None,
            3..=7 if !self.recent.is_empty() => Some(self.rng.pick(&self.recent) << 12 | self.rng.below(4_096)),
            8 => Some(self.not_canonical()),
            _ => Some(self.address()),
        };
        let asid = match self.rng.below(10) {
            0..=2 => None,
            3..=5 => Some(self.asid),
            6..=7 => Some(self.rng.pick(&self.asids)),
            8 => Some(self.rng.below(20)),
            _ => Some(self.rng.below(0x1_0000)),
        };
        self.line(text::guest_fence(va, asid));
    }

    /// Looks at some pages, changes what they come to, mostly with no fence, and looks again: so a book shows.
    fn probe(&mut self) {
        let count = self.rng.range(2, 9) as usize;
        let mut pages = self.scene.pages(self.rng, count);
        let offset = self.mark;
        for &page in &pages {
            self.look(page << 12 | offset);
        }
        if self.rng.percent(40) {
            self.guest_fence();
        }
        self.change();
        if self.rng.percent(50) {
            self.rng.shuffle(&mut pages);
        }
        for &page in &pages {
            self.look(page << 12 | offset);
            self.remember(page);
        }
    }

    /// An access that is mostly granted.
    fn look(&mut self, va: u64) {
        let rights = Rights { mode: self.mode(va), sum: true, mxr: self.rng.percent(20) };
        let line = if self.rng.percent(90) { text::load(rights, va) } else { text::fetch(rights, va) };
        self.line(line);
    }

    /// Changes a root or some table words.
    fn change(&mut self) {
        match self.rng.below(6) {
            0..=2 => {
                self.bare = false;
                let register = self.sound_guest_root();
                self.line(text::guest_root(register));
            }
            3 if !self.scene.host_roots.is_empty() => {
                self.cross();
                let register = self.sound_host_root();
                self.line(text::host_root(register));
                self.cross();
            }
            4 => {
                self.cross();
                for _ in 0..self.rng.range(1, 5) {
                    self.host_edit();
                }
                self.cross();
            }
            _ => self.guest_edit(),
        }
    }

    /// A sound call of the side that is not at work; some would be refused there too.
    fn other_side(&mut self) {
        let rights = Rights { mode: 'u', sum: true, mxr: true };
        let line = match (self.on_guest, self.rng.below(5)) {
            (true, 0) => text::host_store(self.host_address(), self.rng.next()),
            (true, 1) => text::host_load(self.host_address()),
            (true, 2) => text::host_root(self.rng.next()),
            (true, 3) => text::HOST_FENCE.into(),
            (true, _) => text::ENTER.into(),
            (false, 0) => text::load(rights, self.address()),
            (false, 1) => text::store(rights, self.address(), self.rng.next()),
            (false, 2) => text::guest_root(self.rng.next()),
            (false, 3) => text::guest_fence(None, Some(self.rng.below(32))),
            (false, _) => text::LEAVE.into(),
        };
        self.line(line);
    }
}
