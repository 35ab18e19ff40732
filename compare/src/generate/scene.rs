//! Tables of both stages for a trace to play on, mostly sound.

use super::rng::Rng;

const V: u64 = 1;
const R: u64 = 1 << 1;
const W: u64 = 1 << 2;
const X: u64 = 1 << 3;
const U: u64 = 1 << 4;
const G: u64 = 1 << 5;
const A: u64 = 1 << 6;
const D: u64 = 1 << 7;

/// A table word.
#[derive(Clone, Copy, Debug)]
pub struct Slot {
    pub pa: u64,
    pub word: u64,
}

/// A page that a guest table maps to a frame by a leaf of level 0.
#[derive(Clone, Copy, Debug)]
pub struct View {
    pub page: u64,
    pub frame: u64,
}

pub struct Scene {
    pub frames: u64,
    pub slots: Vec<Slot>,
    pub views: Vec<View>,
    /// Roots of the guest, as guest-physical frames.
    pub guest_roots: Vec<u64>,
    /// Roots of the host, none where it stays Bare.
    pub host_roots: Vec<u64>,
    /// The frames that no table was given.
    pub data_frames: Vec<u64>,
    /// The indices that the guest's tables have entries at, for each level.
    indices: [Vec<u64>; 3],
    /// The indices of host roots that map a gigabyte once more.
    aliases: Vec<u64>,
    /// The guest-physical frame of each frame, where the host maps by small pages.
    guest_frames: Vec<u64>,
}

#[derive(Clone, Copy)]
enum HostShape {
    Giant,
    Large,
    Small,
}

impl Scene {
    pub fn new(rng: &mut Rng, frames: u64) -> Self {
        let mut builder = Builder::new(rng, frames);
        let shape = builder.rng.pick(&[HostShape::Giant, HostShape::Large, HostShape::Small, HostShape::Small]);
        let further = frames >= 16;
        let host_sets = match builder.rng.below(10) {
            0..=2 => 0,
            3..=7 => 1,
            _ => 1 + usize::from(further),
        };
        let host_sets = if frames < 4 { 0 } else { host_sets };
        let hosts: Vec<_> = (0..host_sets).map(|_| builder.host_frames(shape)).collect();
        let guest_sets = if builder.free.len() >= 6 || builder.rng.percent(10) { 2 } else { 1 };
        let guests: Vec<_> = (0..guest_sets).map(|_| builder.guest_frames()).collect();
        if matches!(shape, HostShape::Small) {
            builder.map_guest_frames(hosts.len());
        }
        for (place, tables) in hosts.iter().enumerate() {
            builder.host_set(tables, shape, place > 0);
        }
        for tables in &guests {
            builder.guest_set(tables);
        }
        builder.scene
    }

    /// A guest-physical frame that the host maps to this frame.
    pub fn guest_frame(&self, rng: &mut Rng, frame: u64) -> u64 {
        if !self.aliases.is_empty() && rng.percent(20) {
            return rng.pick(&self.aliases) << 18 | frame;
        }
        self.guest_frames.get(frame as usize).copied().unwrap_or(frame)
    }

    /// A page that the guest's tables have something to say of.
    pub fn page(&self, rng: &mut Rng) -> u64 {
        let [low, middle, top] = &self.indices;
        page(rng.pick(top), rng.pick(middle), rng.pick(low))
    }

    /// Several pages, mostly of one set of a TLB.
    pub fn pages(&self, rng: &mut Rng, count: usize) -> Vec<u64> {
        let [low, middle, top] = &self.indices;
        let one_low = rng.percent(60).then(|| rng.pick(low));
        (0..count)
            .map(|_| {
                let low = one_low.unwrap_or_else(|| rng.pick(low));
                page(rng.pick(top), rng.pick(middle), low)
            })
            .collect()
    }
}

/// The canonical page with these indices.
fn page(top: u64, middle: u64, low: u64) -> u64 {
    let page = top << 18 | middle << 9 | low;
    if top >> 8 == 1 { page | !0 << 27 & ((1 << 52) - 1) } else { page }
}

/// U, as most leaves of level 0 have it for pages with this number.
fn user_bit(page: u64) -> u64 {
    if is_mostly_user(page) { U } else { 0 }
}

/// Whether most leaves of level 0 for a page are the user's.
pub fn is_mostly_user(page: u64) -> bool {
    page & 3 == 3
}

struct Tables {
    top: u64,
    middle: u64,
    low: u64,
}

struct Builder<'a> {
    rng: &'a mut Rng,
    scene: Scene,
    free: Vec<u64>,
}

impl<'a> Builder<'a> {
    fn new(rng: &'a mut Rng, frames: u64) -> Self {
        let top_count = rng.range(1, 4) as usize;
        let middle_count = rng.range(1, 4) as usize;
        let low_count = rng.range(3, 11) as usize;
        let top = rng.some(&[0, 0, 1, 2, 255, 256, 511], top_count);
        let mut middle = rng.some(&[0, 1, 2, 255, 511], middle_count);
        middle.extend([0, 0]);
        let mut low = rng.some(&[0, 1, 2, 3, 4, 5, 6, 7, 16, 32, 48, 64, 80, 511], low_count);
        low.extend((0..3).map(|_| rng.below(frames.min(512))));
        let mut free: Vec<u64> = (0..frames).collect();
        rng.shuffle(&mut free);
        let scene = Scene {
            frames,
            slots: Vec::new(),
            views: Vec::new(),
            guest_roots: Vec::new(),
            host_roots: Vec::new(),
            data_frames: free.clone(),
            indices: [low, middle, top],
            aliases: Vec::new(),
            guest_frames: (0..frames).collect(),
        };
        Self { rng, scene, free }
    }

    fn take(&mut self, frame: u64) {
        self.free.retain(|&other| other != frame);
        self.scene.data_frames.retain(|&other| other != frame);
    }

    /// A frame for a table, one of its own where there is one.
    fn frame(&mut self) -> u64 {
        let frame = self.free.last().copied().unwrap_or_else(|| self.rng.below(self.scene.frames));
        self.take(frame);
        frame
    }

    /// Frames for tables of the host. In a small memory the further frames of the root serve for others too.
    fn host_frames(&mut self, shape: HostShape) -> Tables {
        let top = 4 * self.rng.below(self.scene.frames / 4);
        let own = if self.scene.frames < 16 { 1 } else { 4 };
        (top..top + own).for_each(|frame| self.take(frame));
        self.scene.host_roots.push(top);
        match shape {
            HostShape::Giant => Tables { top, middle: top, low: top },
            HostShape::Large => Tables { top, middle: self.frame(), low: top },
            HostShape::Small => Tables { top, middle: self.frame(), low: self.frame() },
        }
    }

    fn guest_frames(&mut self) -> Tables {
        Tables { top: self.frame(), middle: self.frame(), low: self.frame() }
    }

    /// Chooses the guest-physical frame of each frame. With several hosts the tables stay where they are.
    fn map_guest_frames(&mut self, hosts: usize) {
        if hosts == 0 || self.rng.percent(30) {
            return;
        }
        let mut moved: Vec<u64> = if hosts == 1 && self.rng.percent(50) {
            (0..self.scene.frames).collect()
        } else {
            self.scene.data_frames.clone()
        };
        let places = moved.clone();
        self.rng.shuffle(&mut moved);
        for (place, frame) in places.into_iter().zip(moved) {
            self.scene.guest_frames[place as usize] = frame;
        }
    }

    fn put(&mut self, frame: u64, index: u64, word: u64) {
        let word = if self.rng.percent(1) { spoilt(self.rng, word) } else { word };
        self.scene.slots.push(Slot { pa: frame * 4_096 + index * 8, word });
    }

    /// Tables of the host. A further set moves the frames that hold no table.
    fn host_set(&mut self, tables: &Tables, shape: HostShape, further: bool) {
        let small = self.scene.frames < 16;
        let aliases: &[u64] = if small { &[1, 2, 1_023, 2_047] } else { &[1, 2, 512, 1_023, 1_024, 2_047] };
        for &alias in aliases {
            if self.rng.percent(20) {
                let word = self.host_leaf(0);
                self.put(tables.top, alias, word);
                self.scene.aliases.push(alias);
            }
        }
        match shape {
            HostShape::Giant => {
                let word = self.host_leaf(0);
                self.put(tables.top, 0, word);
            }
            HostShape::Large => {
                self.put(tables.top, 0, tables.middle << 10 | V);
                let word = self.host_leaf(0);
                self.put(tables.middle, 0, word);
            }
            HostShape::Small => {
                self.put(tables.top, 0, tables.middle << 10 | V);
                self.put(tables.middle, 0, tables.low << 10 | V);
                self.host_pages(tables.low, further);
            }
        }
    }

    fn host_pages(&mut self, low: u64, further: bool) {
        let mut frames: Vec<u64> = (0..self.scene.frames.min(512)).collect();
        if further {
            let places = self.scene.data_frames.clone();
            let mut moved = places.clone();
            self.rng.shuffle(&mut moved);
            for (place, frame) in places.into_iter().zip(moved) {
                if let Some(slot) = frames.get_mut(place as usize) {
                    *slot = frame;
                }
            }
        }
        for (place, frame) in frames.into_iter().enumerate() {
            let guest_frame = self.scene.guest_frames[place];
            let word = self.host_leaf(frame);
            self.put(low, guest_frame % 512, word);
        }
    }

    /// A leaf of the host, which gives every right of the frames that hold tables.
    fn host_leaf(&mut self, frame: u64) -> u64 {
        let full = !self.scene.data_frames.contains(&frame) || self.rng.percent(85);
        let flags = if full { V | R | W | X | U | A | D } else { leaf_flags(self.rng) | U };
        frame << 10 | flags
    }

    fn guest_set(&mut self, tables: &Tables) {
        let [low, middle, top] = self.scene.indices.clone();
        for index in top.iter().copied() {
            let word = if self.rng.percent(88) { self.pointer(tables.middle) } else { self.guest_leaf(18) };
            self.put(tables.top, index, word);
        }
        for index in middle.iter().copied() {
            let word = if self.rng.percent(85) { self.pointer(tables.low) } else { self.guest_leaf(9) };
            self.put(tables.middle, index, word);
        }
        for index in low {
            let frame = self.any_frame();
            let guest_frame = self.scene.guest_frame(self.rng, frame);
            let flags = leaf_flags(self.rng);
            let flags = if self.rng.percent(90) { flags & !U | user_bit(index) } else { flags };
            self.put(tables.low, index, guest_frame << 10 | flags);
            let page = page(self.rng.pick(&top), self.rng.pick(&middle), index);
            self.scene.views.push(View { page, frame });
        }
        let root = self.scene.guest_frame(self.rng, tables.top);
        self.scene.guest_roots.push(root);
    }

    /// A frame for the guest to use, now and then one outside the memory.
    fn any_frame(&mut self) -> u64 {
        if self.rng.percent(4) { self.scene.frames + self.rng.below(3) } else { self.rng.below(self.scene.frames) }
    }

    fn pointer(&mut self, frame: u64) -> u64 {
        let frame = self.scene.guest_frame(self.rng, frame);
        frame << 10 | V | if self.rng.percent(8) { G } else { 0 } | ignored(self.rng)
    }

    /// A leaf of an upper level, whose frame has so many low bits of 0.
    fn guest_leaf(&mut self, low_bits: u64) -> u64 {
        let base = if !self.scene.aliases.is_empty() && self.rng.percent(20) {
            self.rng.pick(&self.scene.aliases) << 18
        } else {
            self.rng.pick(&[0, 0, 0, 0, 0, 0, 0, 1, 2]) << low_bits
        };
        base << 10 | leaf_flags(self.rng)
    }
}

/// The bits that no walk looks at, mostly 0.
fn ignored(rng: &mut Rng) -> u64 {
    if rng.percent(10) { rng.below(4) << 8 } else { 0 }
}

/// The flags of a leaf that a walk accepts.
fn leaf_flags(rng: &mut Rng) -> u64 {
    let rights = rng.weighted(&[(3, R), (8, R | W), (4, R | X), (8, R | W | X), (2, X)]);
    let mut flags = V | rights | ignored(rng);
    for (percent, flag) in [(35, U), (15, G), (97, A), (90, D)] {
        if rng.percent(percent) {
            flags |= flag;
        }
    }
    flags
}

/// An entry that differs a little from a given one.
pub fn spoilt(rng: &mut Rng, word: u64) -> u64 {
    match rng.below(8) {
        0..=2 => word ^ 1 << rng.below(8),
        3 => word & !(R | W | X) | rng.below(8) << 1,
        4 => word | 1 << rng.range(54, 64),
        5 => word ^ 1 << rng.range(10, 54),
        6 => word ^ rng.below(256),
        _ => 0,
    }
}
