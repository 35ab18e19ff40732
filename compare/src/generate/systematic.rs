//! Cases that go through every choice of a few things, with no chance in them.

use super::damage::ODD_BYTES;
use super::text::{self, PLAIN, Rights};
use super::{Case, needed_room};
use crate::rules::{FRAME_BYTES, FRAME_WORDS, MAX_CALLS, MAX_FRAMES};

/// Calls in a trace of many: fewer than may be.
const CALLS: usize = 9_000;
const POOL: usize = 4 * FRAME_WORDS;
const PAGED: u64 = 8 << 60;
/// V, R, W, X, U, A, D: a leaf that allows everything to a host.
const FULL: u64 = 0xdf;

/// A name for each kind of case, and the cases.
pub fn all() -> Vec<(&'static str, Box<dyn Iterator<Item = Case>>)> {
    vec![
        ("headers", Box::new(headers())),
        ("room for reports", Box::new(rooms())),
        ("cut traces", Box::new(cuts())),
        ("damaged lines", Box::new(damaged_lines())),
        ("flags of both leaves", Box::new(leaf_flags())),
        ("flags of pointers", Box::new(pointer_flags())),
        ("single bits", Box::new(single_bits())),
        ("fences", Box::new(fences())),
        ("rights that change", Box::new(changing_rights())),
        ("pages of one set", Box::new(pages_of_one_set())),
        ("pools that run out", Box::new(pools())),
    ]
}

fn case(frames: usize, trace: Vec<u8>) -> Case {
    let room = needed_room(&trace);
    Case { image: vec![0; frames * FRAME_BYTES], trace, room, pool_words: POOL }
}

/// The traces of these lines after a beginning of their own, each with at most so many lines that it is played.
fn split(frames: u64, beginning: String, lines: impl Iterator<Item = Vec<u8>>) -> impl Iterator<Item = Case> {
    let mut lines = lines.peekable();
    std::iter::from_fn(move || {
        lines.peek()?;
        let mut trace = text::header(frames).into_bytes();
        trace.extend_from_slice(beginning.as_bytes());
        lines.by_ref().take(CALLS).for_each(|line| trace.extend(line));
        Some(case(frames as usize, trace))
    })
}

/// Every way to change one byte of a text, to leave one out, or to put an odd one in.
fn edits(line: &[u8]) -> impl Iterator<Item = Vec<u8>> {
    let substituted = (0..line.len())
        .flat_map(move |place| (0..=u8::MAX).map(move |byte| [&line[..place], &[byte], &line[place + 1..]].concat()));
    let omitted = (0..line.len()).map(move |place| [&line[..place], &line[place + 1..]].concat());
    let inserted = (0..=line.len())
        .flat_map(move |place| ODD_BYTES.iter().map(move |&byte| [&line[..place], &[byte], &line[place..]].concat()));
    substituted.chain(omitted).chain(inserted)
}

fn headers() -> impl Iterator<Item = Case> {
    let numbers = (0..=4_200).map(|frames| case(2, text::header(frames).into_bytes()));
    let limits =
        [0, 1, 2, 7, 8, 9, 10, 11, 99, 100, 512, 999, 1_000, 1_001, MAX_FRAMES - 1, MAX_FRAMES, MAX_FRAMES + 1];
    let images = limits.into_iter().map(|frames| {
        let last = text::host_store(frames as u64 * 4_096 - 8.min(frames as u64 * 4_096), 7);
        case(frames, [text::header(frames as u64), last].concat().into_bytes())
    });
    let damaged =
        edits(b"frames=12\n").map(|header| case(12, [header.as_slice(), text::HOST_FENCE.as_bytes()].concat()));
    numbers.chain(images).chain(damaged)
}

fn rooms() -> impl Iterator<Item = Case> {
    let counts = (0..30).chain([99, 100, 999, 1_000, MAX_CALLS - 1, MAX_CALLS, MAX_CALLS + 1]);
    counts.flat_map(|calls| {
        let trace = [text::header(1), text::HOST_FENCE.repeat(calls)].concat().into_bytes();
        let needed = needed_room(&trace);
        [0, needed - 1, needed, needed + 1].map(|room| Case { room, ..case(1, trace.clone()) })
    })
}

fn cuts() -> impl Iterator<Item = Case> {
    let trace = [
        text::header(1),
        text::host_store(8, 0x1234),
        text::host_load(8),
        text::ENTER.into(),
        text::store(PLAIN, 16, 0xabcd),
        text::guest_fence(None, None),
        text::load(PLAIN, 16),
    ];
    let trace = trace.concat().into_bytes();
    (0..=trace.len()).map(move |end| case(1, trace[..end].to_vec()))
}

/// Every edit of one byte in a line of each form, on either side.
fn damaged_lines() -> impl Iterator<Item = Case> {
    let rights = Rights { mode: 'u', sum: true, mxr: true };
    let forms = [
        text::load(PLAIN, 0x1008),
        text::load(rights, 0x0123_4567_89ab_cdef),
        text::store(PLAIN, 0x1008, 0xfedc_ba98_7654_3210),
        text::fetch(PLAIN, 0x10),
        text::guest_fence(Some(0x1000), Some(1)),
        text::guest_fence(None, Some(15)),
        text::guest_fence(Some(0x1000), None),
        text::guest_fence(None, None),
        text::guest_root(0x8000_1000_0000_0001),
        text::LEAVE.into(),
        text::host_load(0xff8),
        text::host_store(0x10, 0x0123_4567_89ab_cdef),
        text::host_root(0x8000_0000_0000_0004),
        text::HOST_FENCE.into(),
        text::ENTER.into(),
    ];
    let lines = move || {
        let forms = forms.clone();
        forms.into_iter().flat_map(|form| edits(form.as_bytes()).collect::<Vec<_>>())
    };
    let leaf = text::host_store(0x1000, 0xc7);
    split(2, leaf.clone(), lines()).chain(split(2, leaf + text::ENTER, lines()))
}

/// Tables of both stages in 16 frames, with room for a leaf to be tried at each level.
mod tables {
    use super::{FULL, PAGED, text};

    pub const FRAMES: u64 = 16;
    pub const GUEST_ROOT: u64 = PAGED | 1 << 44;
    pub const HOST_ROOT: u64 = PAGED | 4;
    /// The frame that the leaves under trial lead to.
    pub const DATA: u64 = 3;

    /// Host root in frames 4 to 7, host tables in 8 and 9; guest root, tables and data in frames 0 to 3.
    pub fn set_up() -> String {
        let mut lines = text::host_store(4 << 12, 8 << 10 | 1) + &text::host_store(8 << 12, 9 << 10 | 1);
        for frame in 0..4 {
            lines += &text::host_store(9 << 12 | frame << 3, frame << 10 | FULL);
        }
        lines += &text::host_store(0, 1 << 10 | 1);
        lines += &text::host_store(1 << 12, 2 << 10 | 1);
        lines += &text::host_store(3 << 12 | 8, 0x3333);
        lines += &text::host_root(HOST_ROOT);
        lines + text::ENTER + &text::guest_root(GUEST_ROOT) + text::LEAVE
    }

    /// A place for a leaf: its address, its frame, and the number that it leads to the data by.
    pub struct Place {
        pub pa: u64,
        pub frame: u64,
        pub number: u64,
    }

    /// The host's leaf at a level, with the guest-physical frame that it maps to the data.
    pub fn host_leaf(level: u64) -> Place {
        match level {
            0 => Place { pa: 9 << 12 | DATA << 3, frame: DATA, number: DATA },
            1 => Place { pa: 8 << 12 | 5 << 3, frame: 0, number: 5 << 9 | DATA },
            _ => Place { pa: 4 << 12 | 6 << 3, frame: 0, number: 6 << 18 | DATA },
        }
    }

    /// The guest's leaf at a level, with the page that it maps to a guest-physical frame.
    pub fn guest_leaf(level: u64, guest_frame: u64) -> Place {
        match level {
            0 => Place { pa: 2 << 12 | 7 << 3, frame: guest_frame, number: 7 },
            1 => Place { pa: 1 << 12 | 9 << 3, frame: guest_frame & !0x1ff, number: 9 << 9 | guest_frame & 0x1ff },
            _ => Place { pa: 11 << 3, frame: guest_frame & !0x3_ffff, number: 11 << 18 | guest_frame & 0x3_ffff },
        }
    }
}

/// Each kind of access in each mode, with each SUM and MXR, at a page.
fn every_access(page: u64) -> impl Iterator<Item = String> {
    let va = page << 12 | 8;
    (0..8).flat_map(move |bits| {
        let rights = Rights { mode: if bits & 4 == 0 { 's' } else { 'u' }, sum: bits & 2 != 0, mxr: bits & 1 != 0 };
        [text::load(rights, va), text::fetch(rights, va), text::store(rights, va, va ^ bits)]
    })
}

/// Every combination of the eight flags of both leaves, every access of each; the levels go round.
fn leaf_flags() -> impl Iterator<Item = Case> {
    let lines = (0..0x1_0000_u64).flat_map(|flags| {
        let round = flags + (flags >> 8);
        let host = tables::host_leaf(round % 3);
        let guest = tables::guest_leaf(round / 3 % 3, host.number);
        let mut lines = vec![
            text::host_store(host.pa, host.frame << 10 | flags & 0xff),
            text::host_store(guest.pa, guest.frame << 10 | flags >> 8),
        ];
        if flags % 4 != 3 {
            lines.push(text::HOST_FENCE.into());
        }
        lines.push(text::ENTER.into());
        lines.extend(every_access(guest.number));
        lines.push(text::LEAVE.into());
        lines.into_iter().map(String::into_bytes)
    });
    split(tables::FRAMES, tables::set_up() + &text::host_store(9 << 12 | 3 << 3, 3 << 10 | FULL), lines)
}

/// The words on the way of a page of level 0 at both stages: address and word.
fn path() -> [(u64, u64); 7] {
    let guest = tables::guest_leaf(0, tables::DATA);
    [
        (4 << 12, 8 << 10 | 1),
        (8 << 12, 9 << 10 | 1),
        (9 << 12 | tables::DATA << 3, tables::DATA << 10 | FULL),
        (9 << 12 | 2 << 3, 2 << 10 | FULL),
        (0, 1 << 10 | 1),
        (1 << 12, 2 << 10 | 1),
        (guest.pa, guest.frame << 10 | 0xcf),
    ]
}

/// Changes a word on the path for a while, and makes every access of the page meanwhile.
fn tried(pa: u64, word: u64, sound: u64) -> Vec<Vec<u8>> {
    let mut lines = vec![text::host_store(pa, word), text::HOST_FENCE.into(), text::ENTER.into()];
    lines.extend(every_access(7));
    lines.extend([text::LEAVE.into(), text::host_store(pa, sound)]);
    lines.into_iter().map(String::into_bytes).collect()
}

/// Every value of the low ten bits of each entry on a path.
fn pointer_flags() -> impl Iterator<Item = Case> {
    let lines = path()
        .into_iter()
        .flat_map(|(pa, sound)| (0..0x400).flat_map(move |flags| tried(pa, sound & !0x3ff | flags, sound)));
    split(tables::FRAMES, path_set_up(), lines)
}

fn path_set_up() -> String {
    let (pa, word) = path()[6];
    text::host_store(pa, word) + &tables::set_up()
}

/// Every bit of each entry on a path, of both roots, and of the address turned by itself.
fn single_bits() -> impl Iterator<Item = Case> {
    let entries =
        path().into_iter().flat_map(|(pa, sound)| (0..64).flat_map(move |bit| tried(pa, sound ^ 1 << bit, sound)));
    let roots = (0..64).flat_map(|bit| {
        let mut lines = vec![text::host_root(tables::HOST_ROOT ^ 1 << bit), text::ENTER.into()];
        lines.extend(every_access(7));
        lines.extend([
            text::LEAVE.into(),
            text::host_root(tables::HOST_ROOT),
            text::HOST_FENCE.into(),
            text::ENTER.into(),
        ]);
        lines.push(text::guest_root(tables::GUEST_ROOT ^ 1 << bit));
        lines.extend(every_access(7));
        lines.extend([text::guest_root(tables::GUEST_ROOT), text::LEAVE.into(), text::HOST_FENCE.into()]);
        lines.into_iter().map(String::into_bytes).collect::<Vec<_>>()
    });
    let addresses = (0..64).flat_map(|bit| {
        let va = (7 << 12 | 8) ^ 1 << bit;
        let mut lines = vec![text::ENTER.into()];
        for register in [tables::GUEST_ROOT, 0] {
            lines.push(text::guest_root(register));
            lines.extend([text::load(PLAIN, va), text::store(PLAIN, va, 9), text::fetch(PLAIN, va)]);
        }
        lines.extend([text::guest_root(tables::GUEST_ROOT), text::LEAVE.into()]);
        lines.into_iter().map(String::into_bytes).collect::<Vec<_>>()
    });
    split(tables::FRAMES, path_set_up(), entries.chain(roots).chain(addresses))
}

/// Remembered pages, global or not; each shape of fence; then the same pages under another root, of either ASID.
fn fences() -> impl Iterator<Item = Case> {
    // Root frames 1 and 2 with leaves of a gigabyte at indices 0 and 1, the second to frames outside.
    let set_up = |global: u64| {
        [
            text::host_store(0x1000, 0xcf | global << 5),
            text::host_store(0x1008, 0xcf),
            text::host_store(8, 0x1111),
            text::host_store(0x2000, 1 << 10 << 18 | 0xcf),
        ]
        .concat()
    };
    let addresses = [None, Some(0), Some(0x1000), Some(0x4000_0000), Some(1 << 39), Some(1 << 63)];
    let asids = [None, Some(1), Some(2), Some(15), Some(16), Some(0xffff)];
    (0..2).map(move |global| {
        let mut trace = text::header(4) + &set_up(global);
        for va in addresses {
            for asid in asids {
                for later_asid in [1, 2] {
                    trace += text::ENTER;
                    trace += &text::guest_root(PAGED | 1 << 44 | 1);
                    trace += &looks();
                    trace += &text::guest_fence(va, asid);
                    trace += &text::guest_root(PAGED | later_asid << 44 | 2);
                    trace += &looks();
                    trace += text::LEAVE;
                    trace += text::HOST_FENCE;
                }
            }
        }
        case(4, trace.into_bytes())
    })
}

/// Loads of three pages.
fn looks() -> String {
    [0x8, 0x1008, 0x4000_0008].map(|va| text::load(PLAIN, va)).concat()
}

/// The rights R, W and X of a leaf as a number, with the other flags that a leaf needs.
fn flags_with(rights: u64) -> u64 {
    FULL & !0xe | rights << 1
}

/// A page with any rights at both stages, looked at, given any others with no fence, looked at by MXR, and taken away:
/// what is left of both grants shows.
fn changing_rights() -> impl Iterator<Item = Case> {
    let host = tables::host_leaf(0);
    let guest = tables::guest_leaf(0, host.number);
    let va = guest.number << 12 | 8;
    let user = Rights { mode: 'u', ..PLAIN };
    let by_mxr = Rights { mxr: true, ..user };
    let leaves = move |rights: u64| {
        text::host_store(guest.pa, guest.frame << 10 | flags_with(rights & 7))
            + &text::host_store(host.pa, host.frame << 10 | flags_with(rights >> 3 & 7))
    };
    let looks = move || text::fetch(user, va) + &text::store(user, va, 5) + &text::load(user, va);
    let lines = (0..0x1000).flat_map(move |rights| {
        let lines = [
            leaves(rights),
            text::HOST_FENCE.into(),
            text::ENTER.into(),
            looks(),
            text::LEAVE.into(),
            leaves(rights >> 6),
            text::ENTER.into(),
            text::load(by_mxr, va),
            text::LEAVE.into(),
            text::host_store(guest.pa, 0),
            text::ENTER.into(),
            looks(),
            text::LEAVE.into(),
        ];
        let lines = lines.concat().into_bytes();
        lines.split_inclusive(|&byte| byte == b'\n').map(<[u8]>::to_vec).collect::<Vec<_>>()
    });
    split(tables::FRAMES, tables::set_up(), lines)
        .flat_map(|case| [0, POOL].map(|pool_words| Case { pool_words, ..case.clone() }))
}

/// Pages of one set of a TLB, in every order of new ones with and without a right and of one seen before, and then all of
/// them once more under a root of zeros. With no pool the ways themselves show.
fn pages_of_one_set() -> impl Iterator<Item = Case> {
    let orders = (0..3_usize.pow(8)).map(|order| (0..8).map(move |step| order / 3_usize.pow(step) % 3));
    let lines = orders.flat_map(|order| one_set(order).into_iter().map(String::into_bytes));
    // Gigabytes 0 to 7 have every right, gigabytes 8 to 15 X alone, where the host gives R and never X.
    let mut beginning = text::host_store(4 << 12, 0x53);
    for index in 0..16 {
        beginning += &text::host_store(index << 3, if index < 8 { 0xcf } else { 0x49 });
    }
    beginning += &text::host_root(PAGED | 4);
    split(8, beginning, lines).map(|case| Case { pool_words: 0, ..case })
}

/// One order: a new page with rights for 0, one without for 1, the first page again for 2.
fn one_set(order: impl Iterator<Item = usize>) -> Vec<String> {
    let by_mxr = Rights { mxr: true, ..PLAIN };
    let mut lines = vec![text::HOST_FENCE.into(), text::ENTER.into(), text::guest_root(PAGED)];
    let mut seen = [0, 0];
    for step in order {
        let gigabyte = match step {
            2 => 0,
            kind => {
                seen[kind] += 1;
                8 * kind as u64 + seen[kind] - 1
            }
        };
        lines.push(text::load(by_mxr, gigabyte << 30 | 8));
    }
    lines.push(text::guest_root(PAGED | 2));
    lines.extend((0..seen[0]).map(|gigabyte| text::load(PLAIN, gigabyte << 30 | 8)));
    lines.push(text::LEAVE.into());
    lines
}

/// Pools of every small size and about the largest, filled up by as many gigabytes as they take, and some further.
fn pools() -> impl Iterator<Item = Case> {
    let frames = (0..14).chain([510, 511, 512, 513, 600]);
    frames.flat_map(|frames| {
        let fitting: usize = frames.min(512) / 2;
        let counts = fitting.saturating_sub(2)..fitting + 3;
        counts.flat_map(move |count| [0, 1].map(|rest| gigabytes(frames * FRAME_WORDS + rest, count)))
    })
}

/// Loads of a page in each of so many gigabytes, and once more under a root of zeros: what is remembered shows.
fn gigabytes(pool_words: usize, count: usize) -> Case {
    let addresses = || (0..count as u64).map(|index| index << 30 | 8).filter(|va| va >> 38 == 0);
    let mut trace = text::header(3);
    for index in 0..256 {
        trace += &text::host_store(index << 3, 0xcf);
    }
    trace += text::ENTER;
    trace += &text::guest_root(PAGED);
    addresses().for_each(|va| trace += &text::load(PLAIN, va));
    trace += &text::guest_root(PAGED | 2);
    addresses().for_each(|va| trace += &text::load(PLAIN, va));
    Case { pool_words, ..case(3, trace.into_bytes()) }
}
