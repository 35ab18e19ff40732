//! Traces with their images, made from a seed.

mod damage;
mod rng;
mod scene;
mod stream;
pub mod systematic;
pub mod text;

use crate::rules::{FRAME_BYTES, FRAME_WORDS, MAX_CALLS, MAX_FRAMES, PROGRAM_BYTES, PROGRAM_CALLS, call_lines};
pub use rng::Rng;
use scene::Scene;
use stream::Stream;

/// What `play` is given, but for the translator's kind.
#[derive(Clone)]
pub struct Case {
    pub image: Vec<u8>,
    pub trace: Vec<u8>,
    /// The length of the report buffer.
    pub room: usize,
    /// The words of a shadow's pool.
    pub pool_words: usize,
}

/// The room that a report of a trace needs.
pub fn needed_room(trace: &[u8]) -> usize {
    64 + 128 * call_lines(trace).count()
}

/// The case of a seed, for the library.
pub fn case(seed: u64) -> Case {
    let rng = &mut Rng::new(seed);
    let frames = some_frames(rng);
    let scene = Scene::new(rng, frames);
    let filled = rng.percent(65);
    let calls = some_calls(rng);
    let lines = play_lines(rng, &scene, !filled, calls);
    let lines = damage_lines(rng, lines);
    let trace = joined(rng, frames, &lines);
    let mut image = if filled { filled_image(rng, &scene) } else { vec![0; frames as usize * FRAME_BYTES] };
    resize(rng, &mut image);
    let room = some_room(rng, needed_room(&trace));
    Case { image, trace, room, pool_words: some_pool(rng) }
}

/// The input of a seed, for the program.
pub fn program_input(seed: u64) -> Vec<u8> {
    let rng = &mut Rng::new(seed);
    let few = rng.range(1, 9);
    let frames = rng.weighted(&[(60, 8), (38, few), (2, 9)]);
    let scene = Scene::new(rng, frames);
    let calls = rng.weighted(&[(3, 0), (7, 4), (15, 40), (75, 350)]);
    let lines = play_lines(rng, &scene, true, calls);
    let mut lines = damage_lines(rng, lines);
    if rng.percent(80) {
        fit(&mut lines);
    }
    let mut input = joined(rng, frames, &lines);
    pad(rng, &mut input);
    input
}

/// Words of a memory, both root registers, and addresses to load from.
#[derive(Clone)]
pub struct LoadCase {
    pub words: Vec<u64>,
    pub guest_root: u64,
    pub host_root: u64,
    pub addresses: Vec<u64>,
    pub pool_words: usize,
}

/// The case of a seed, for the functions that load. At most one register breaks its layout.
pub fn load_case(seed: u64) -> LoadCase {
    let rng = &mut Rng::new(seed);
    let frames = some_frames(rng);
    let scene = Scene::new(rng, frames);
    let image = filled_image(rng, &scene);
    let mut words: Vec<u64> = image.as_chunks().0.iter().map(|&bytes| u64::from_le_bytes(bytes)).collect();
    if rng.percent(10) {
        words.resize(words.len() + rng.index(FRAME_WORDS), 7);
    }
    let mut guest_root = 8 << 60 | rng.below(16) << 44 | rng.pick(&scene.guest_roots);
    let mut host_root = scene.host_roots.first().map_or(0, |root| 8 << 60 | root);
    match rng.below(20) {
        0 => guest_root = 0,
        1 => guest_root ^= 1 << rng.below(64),
        2 => host_root ^= 1 << rng.below(64),
        _ => {}
    }
    let pages = rng.range(1, 40) as usize;
    let pages = scene.pages(rng, pages);
    let count = rng.weighted(&[(1, 0), (4, 10), (4, 300), (1, 3_000)]);
    let offset = |rng: &mut Rng| if rng.percent(3) { rng.below(4_096) } else { rng.below(512) * 8 };
    let addresses = (0..count).map(|_| rng.pick(&pages) << 12 | offset(rng)).collect();
    LoadCase { words, guest_root, host_root, addresses, pool_words: some_pool(rng) }
}

fn some_frames(rng: &mut Rng) -> u64 {
    match rng.below(1_000) {
        0..=199 => rng.range(1, 9),
        200..=749 => rng.range(8, 25),
        750..=979 => rng.range(24, 130),
        980..=995 => rng.range(500, 1_100),
        _ => rng.range(MAX_FRAMES as u64 - 1, MAX_FRAMES as u64 + 1),
    }
}

fn some_calls(rng: &mut Rng) -> usize {
    let limit = match rng.below(1_000) {
        0..=19 => 1,
        20..=169 => 10,
        170..=549 => 100,
        550..=939 => 600,
        940..=989 => 3_000,
        _ => return MAX_CALLS + 3,
    };
    rng.index(limit)
}

fn some_pool(rng: &mut Rng) -> usize {
    let frames = rng.weighted(&[(5, 0), (1, 1), (2, 3), (8, 4), (4, 5), (3, 6), (3, 7), (3, 8), (1, 40)]);
    let part = rng.index(FRAME_WORDS);
    let rest = rng.weighted(&[(6, 0), (1, 1), (1, FRAME_WORDS - 1), (2, part)]);
    frames * FRAME_WORDS + rest
}

fn some_room(rng: &mut Rng, needed: usize) -> usize {
    match rng.below(100) {
        0..=79 => needed,
        80..=92 => needed + rng.index(300),
        93..=97 => needed - 1,
        98 => 0,
        _ => rng.index(needed),
    }
}

/// Lines of calls: about as many as asked for, after the host's stores where the image is zero.
fn play_lines(rng: &mut Rng, scene: &Scene, set_up: bool, calls: usize) -> Vec<Vec<u8>> {
    let mut stream = Stream::new(rng, scene);
    if calls > 0 {
        if set_up {
            stream.set_up();
        }
        stream.begin();
    }
    let count = stream.lines.len() + calls;
    while stream.lines.len() < count {
        stream.act();
    }
    let mut lines = stream.lines;
    if calls > MAX_CALLS {
        lines.truncate(rng.range(MAX_CALLS as u64 - 1, MAX_CALLS as u64 + 3) as usize);
    }
    lines
}

/// In a third of the traces, damages a copy of some lines, which mostly stands before the line itself.
fn damage_lines(rng: &mut Rng, lines: Vec<Vec<u8>>) -> Vec<Vec<u8>> {
    if rng.percent(65) {
        return lines;
    }
    let percent = rng.pick(&[1, 5, 20]);
    let mut damaged = Vec::new();
    for line in lines {
        let chosen = rng.percent(percent);
        if chosen {
            damaged.push(damage::damaged(rng, &line));
        }
        if !chosen || rng.percent(90) {
            damaged.push(line);
        }
    }
    damaged
}

/// The trace of these lines, with its header, and sometimes with damage to the whole.
fn joined(rng: &mut Rng, frames: u64, lines: &[Vec<u8>]) -> Vec<u8> {
    let header = if rng.percent(4) { damage::odd_header(rng, frames) } else { text::header(frames).into_bytes() };
    let mut trace = [header, lines.concat()].concat();
    match rng.below(50) {
        0..=1 => damage::scatter(rng, &mut trace),
        2..=3 => {
            trace.pop();
        }
        4 => trace.truncate(rng.index(trace.len() + 1)),
        _ => {}
    }
    trace
}

/// Drops lines until the program's limits are kept.
fn fit(lines: &mut Vec<Vec<u8>>) {
    let header = 9;
    let mut bytes = header;
    let kept = lines.iter().take(PROGRAM_CALLS).take_while(|line| {
        bytes += line.len();
        bytes <= PROGRAM_BYTES
    });
    let kept = kept.count();
    lines.truncate(kept);
}

/// Now and then fills an input up to a limit of the program, or one further.
fn pad(rng: &mut Rng, input: &mut Vec<u8>) {
    match rng.below(25) {
        0 if input.len() < PROGRAM_BYTES => {
            let last = if rng.percent(50) { b"\n" } else { b"y" };
            input.resize(PROGRAM_BYTES - 1 + rng.index(3), b'y');
            input.pop();
            input.extend_from_slice(last);
        }
        1 => {
            let wanted = PROGRAM_CALLS - 1 + rng.index(4);
            let missing = wanted.saturating_sub(call_lines(input).count());
            input.extend(std::iter::repeat_n(b'\n', missing));
        }
        _ => {}
    }
}

/// The tables of a scene, and random words in the other frames.
fn filled_image(rng: &mut Rng, scene: &Scene) -> Vec<u8> {
    let mut image = vec![0; scene.frames as usize * FRAME_BYTES];
    for &frame in &scene.data_frames {
        for word in image[frame as usize * FRAME_BYTES..][..FRAME_BYTES].as_chunks_mut().0 {
            *word = rng.next().to_le_bytes();
        }
    }
    for slot in &scene.slots {
        if let Some(word) = image.get_mut(slot.pa as usize..slot.pa as usize + 8) {
            word.copy_from_slice(&slot.word.to_le_bytes());
        }
    }
    image
}

/// Now and then gives an image another length than its header says.
fn resize(rng: &mut Rng, image: &mut Vec<u8>) {
    let length = image.len();
    match rng.below(60) {
        0 => image.resize(length - 1, 0),
        1 => image.resize(length + rng.pick(&[1, 8, FRAME_BYTES - 1, FRAME_BYTES]), 0),
        2 => image.resize(length - FRAME_BYTES, 0),
        _ => {}
    }
}
