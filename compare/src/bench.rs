//! Times both sides in one process, in turn, on the same work.

use crate::generate::text::{self, PLAIN, Rights};
use crate::generate::{Case, LoadCase, Rng, needed_room};
use crate::outcome::{Kind, LoadKind, Outcome};
use crate::rules::{FRAME_BYTES, FRAME_WORDS, Nested, Refusal, Shadow, Tlb, call_lines, play};
use crate::{plain, proved};
use std::hint::black_box;
use std::time::{Duration, Instant};

/// How often each side does the work of a row.
const REPETITIONS: usize = 21;
const ADDRESSES: usize = 400_000;
const PAGED: u64 = 8 << 60;
const FRAMES: u64 = 256;
/// Frames below this one hold tables.
const FIRST_DATA: u64 = 16;
const HOST_POOL: usize = 8 * FRAME_WORDS;

/// The median time of each side.
struct Times {
    plain: Duration,
    proved: Duration,
}

pub fn run() {
    println!("median of {REPETITIONS} repetitions of each side, taken in turn; ratio = Rust time / proved time\n");
    println!("| Work | Unit | Rust | Proved | Ratio |");
    println!("|---|---|---|---|---|");
    for (name, kind, case) in load_rows() {
        let times = time_loads(kind, case);
        print_row(name, "ns per access", per(times, ADDRESSES));
    }
    let mixed = play_case(8_000, true);
    let times = time_play(Kind::TlbTlbShadow, &mixed);
    print_row("mixed calls with fences, tlb+tlb+shadow", "ns per call", per(times, call_lines(&mixed.trace).count()));
    let long = play_case(8_000, false);
    let times = time_play(Kind::Nested, &long);
    let rate = |time: Duration| long.trace.len() as f64 / time.as_secs_f64() / 1e6;
    let ratio = times.plain.as_secs_f64() / times.proved.as_secs_f64();
    let (plain, proved) = (rate(times.plain), rate(times.proved));
    println!("| whole play, nested | MB of trace per second | {plain:.1} | {proved:.1} | {ratio:.2} |");
    for calls in [1_000, 2_000, 4_000, 8_000] {
        for (kind, mixed) in [(Kind::Nested, false), (Kind::TlbTlbShadow, true)] {
            let times = time_play(kind, &play_case(calls, mixed));
            print_row(&format!("play of {calls} calls, {}", kind.name()), "ns per call", per(times, calls));
        }
    }
}

/// Nanoseconds of each side for one of so many items.
fn per(times: Times, items: usize) -> [f64; 2] {
    [times.plain, times.proved].map(|time| time.as_secs_f64() * 1e9 / items as f64)
}

fn print_row(name: &str, unit: &str, [plain, proved]: [f64; 2]) {
    println!("| {name} | {unit} | {plain:.1} | {proved:.1} | {:.2} |", plain / proved);
}

fn median(mut times: Vec<Duration>) -> Duration {
    times.sort();
    times[times.len() / 2]
}

/// Times both sides in turn; which of them begins changes each time.
fn time(mut plain: impl FnMut() -> Duration, mut proved: impl FnMut() -> Duration) -> Times {
    let mut times = (Vec::new(), Vec::new());
    for repetition in 0..REPETITIONS {
        if repetition % 2 == 0 {
            times.0.push(plain());
            times.1.push(proved());
        } else {
            times.1.push(proved());
            times.0.push(plain());
        }
    }
    Times { plain: median(times.0), proved: median(times.1) }
}

/// How a stage is mapped.
#[derive(Clone, Copy)]
enum Pages {
    Bare,
    Small,
    Giant,
}

/// Words with tables of both stages, such that page p comes to data frame 16 + p.
fn tables(guest: Pages, host: Pages) -> (Vec<u64>, u64, u64) {
    let mut words: Vec<u64> = (0..FRAMES * FRAME_WORDS as u64).map(|word| word.wrapping_mul(0x9e37_79b9)).collect();
    words[..FIRST_DATA as usize * FRAME_WORDS].fill(0);
    let mut put = |frame: u64, index: u64, word| words[frame as usize * FRAME_WORDS + index as usize] = word;
    let guest_root = match guest {
        Pages::Bare => 0,
        Pages::Small => {
            put(0, 0, 1 << 10 | 1);
            put(1, 0, 2 << 10 | 1);
            (0..FRAMES - FIRST_DATA).for_each(|page| put(2, page, (FIRST_DATA + page) << 10 | 0xcf));
            PAGED | 1 << 44
        }
        Pages::Giant => {
            put(0, 0, 0xcf);
            PAGED | 1 << 44
        }
    };
    let host_root = match host {
        Pages::Bare => 0,
        Pages::Small => {
            put(4, 0, 8 << 10 | 1);
            put(8, 0, 9 << 10 | 1);
            (0..FRAMES).for_each(|frame| put(9, frame, frame << 10 | 0xdf));
            PAGED | 4
        }
        Pages::Giant => {
            put(4, 0, 0xdf);
            PAGED | 4
        }
    };
    (words, guest_root, host_root)
}

/// Loads from random words of these pages, in turn.
fn load_case(guest: Pages, host: Pages, pages: &[u64]) -> LoadCase {
    let (words, guest_root, host_root) = tables(guest, host);
    // Where the guest does not map page p to frame 16 + p itself, its addresses do.
    let first = if matches!(guest, Pages::Small) { 0 } else { FIRST_DATA };
    let mut rng = Rng::new(1);
    let pages = pages.iter().cycle().take(ADDRESSES);
    let addresses = pages.map(|page| (first + page) << 12 | rng.below(512) << 3).collect();
    LoadCase { words, guest_root, host_root, addresses, pool_words: HOST_POOL }
}

fn load_rows() -> Vec<(&'static str, LoadKind, LoadCase)> {
    let mut many: Vec<u64> = (0..64).collect();
    Rng::new(2).shuffle(&mut many);
    let few: Vec<u64> = (0..16).collect();
    let one_set: Vec<u64> = (0..8).map(|page| 16 * page).collect();
    let (small, giant, bare) = (Pages::Small, Pages::Giant, Pages::Bare);
    vec![
        ("nested, pages of 4 KiB at both stages", LoadKind::Nested, load_case(small, small, &many)),
        ("nested, pages of 1 GiB at both stages", LoadKind::Nested, load_case(giant, giant, &many)),
        ("nested, guest Bare, host Sv39x4", LoadKind::Nested, load_case(bare, small, &many)),
        ("nested, guest Sv39, host Bare", LoadKind::Nested, load_case(small, bare, &many)),
        ("TLB hits, 16 pages", LoadKind::Tlb, load_case(small, small, &few)),
        ("TLB misses, 8 pages of one set", LoadKind::Tlb, load_case(small, small, &one_set)),
        ("shadow hits, 64 pages", LoadKind::Shadow, load_case(small, small, &many)),
    ]
}

fn time_loads(kind: LoadKind, case: LoadCase) -> Times {
    let (mut plain_case, mut proved_case) = (case.clone(), case);
    let sum = plain::loaded(kind, &mut plain_case).expect("the registers are sound");
    assert_ne!(sum, 0);
    let plain = || {
        let start = Instant::now();
        let loaded = plain::loaded(kind, black_box(&mut plain_case));
        let taken = start.elapsed();
        assert_eq!(loaded, Ok(sum));
        taken
    };
    let proved = || {
        let start = Instant::now();
        let loaded = proved::loads(kind, black_box(&mut proved_case));
        let taken = start.elapsed();
        assert_eq!(loaded, (0, sum));
        taken
    };
    time(plain, proved)
}

/// A trace of so many calls on tables of small pages; with fences, root writes and host calls where `mixed`.
fn play_case(calls: usize, mixed: bool) -> Case {
    let (words, guest_root, host_root) = tables(Pages::Small, Pages::Small);
    let image: Vec<u8> = words.into_iter().flat_map(u64::to_le_bytes).collect();
    let mut rng = Rng::new(3);
    let mut lines = vec![text::host_root(host_root), text::ENTER.into(), text::guest_root(guest_root)];
    while lines.len() < calls {
        let va = rng.below(40) << 12 | rng.below(512) << 3;
        match rng.below(100) {
            0..=5 if mixed => lines.push(text::guest_fence(Some(va), Some(1))),
            6..=7 if mixed => lines.push(text::guest_fence(None, Some(1))),
            8 if mixed => lines.push(text::guest_fence(None, None)),
            9..=10 if mixed => lines.push(text::guest_root(guest_root)),
            11 if mixed => lines.extend([text::LEAVE.into(), text::HOST_FENCE.into(), text::ENTER.into()]),
            12..=30 => lines.push(text::store(PLAIN, va, rng.next())),
            31..=40 => lines.push(text::fetch(PLAIN, va)),
            41..=43 => lines.push(text::load(Rights { mode: 'u', ..PLAIN }, va)),
            _ => lines.push(text::load(PLAIN, va)),
        }
    }
    lines.truncate(calls);
    let trace = [text::header(FRAMES), lines.concat()].concat().into_bytes();
    assert_eq!(image.len(), FRAMES as usize * FRAME_BYTES);
    Case { image, room: needed_room(&trace), trace, pool_words: HOST_POOL }
}

fn plain_play(kind: Kind, case: &Case, outcome: &mut Outcome) -> Result<usize, Refusal> {
    let Outcome { image, report, .. } = outcome;
    let shadow = || Shadow::new(vec![0; case.pool_words]);
    match kind {
        Kind::Nested => play(image, &mut Nested, &case.trace, report),
        Kind::Shadow => play(image, &mut shadow(), &case.trace, report),
        Kind::TlbTlbShadow => play(image, &mut Tlb::new(Tlb::new(shadow())), &case.trace, report),
    }
}

fn time_play(kind: Kind, case: &Case) -> Times {
    let (mut one, mut other) = (Outcome::before(case), Outcome::before(case));
    let plain = || {
        one.image.copy_from_slice(&case.image);
        let start = Instant::now();
        let length = plain_play(kind, black_box(case), &mut one);
        let taken = start.elapsed();
        one.length = length.expect("the trace is sound") as u64;
        taken
    };
    let proved = || {
        other.image.copy_from_slice(&case.image);
        let start = Instant::now();
        let Outcome { image, report, .. } = &mut other;
        let played = proved::play(kind, case.pool_words, image, black_box(&case.trace), report);
        let taken = start.elapsed();
        (other.status, other.length) = played;
        taken
    };
    let times = time(plain, proved);
    assert!(one == other, "both sides must leave the same");
    times
}
