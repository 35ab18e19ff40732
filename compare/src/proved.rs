//! The proved player: the C functions of cardreader.h, and safe functions over them.

use crate::generate::{Case, LoadCase};
use crate::outcome::{Kind, LoadKind, Outcome};

#[repr(C)]
struct Played {
    status: u64,
    length: u64,
}

#[repr(C)]
struct Loaded {
    status: u64,
    sum: u64,
}

unsafe extern "C" {
    fn cardreader_play_nested(
        image: *mut u8,
        image_len: usize,
        trace: *const u8,
        trace_len: usize,
        report: *mut u8,
        report_len: usize,
    ) -> Played;

    fn cardreader_play_shadow(
        pool_words: usize,
        image: *mut u8,
        image_len: usize,
        trace: *const u8,
        trace_len: usize,
        report: *mut u8,
        report_len: usize,
    ) -> Played;

    fn cardreader_play_tlb_tlb_shadow(
        pool_words: usize,
        image: *mut u8,
        image_len: usize,
        trace: *const u8,
        trace_len: usize,
        report: *mut u8,
        report_len: usize,
    ) -> Played;

    fn cardreader_loads_nested(
        words: *mut u64,
        words_len: usize,
        guest_root: u64,
        host_root: u64,
        addresses: *const u64,
        addresses_len: usize,
    ) -> Loaded;

    fn cardreader_loads_shadow(
        pool_words: usize,
        words: *mut u64,
        words_len: usize,
        guest_root: u64,
        host_root: u64,
        addresses: *const u64,
        addresses_len: usize,
    ) -> Loaded;

    fn cardreader_loads_tlb(
        words: *mut u64,
        words_len: usize,
        guest_root: u64,
        host_root: u64,
        addresses: *const u64,
        addresses_len: usize,
    ) -> Loaded;
}

/// Plays a trace on an image; answers the status and the length of the report.
pub fn play(kind: Kind, pool_words: usize, image: &mut [u8], trace: &[u8], report: &mut [u8]) -> (u64, u64) {
    let (image, image_len) = (image.as_mut_ptr(), image.len());
    let (report, report_len) = (report.as_mut_ptr(), report.len());
    let (trace, trace_len) = (trace.as_ptr(), trace.len());
    // SAFETY: each pointer and length is of one live slice, and those that are written to are borrowed as `&mut`.
    let played = unsafe {
        match kind {
            Kind::Nested => cardreader_play_nested(image, image_len, trace, trace_len, report, report_len),
            Kind::Shadow => cardreader_play_shadow(pool_words, image, image_len, trace, trace_len, report, report_len),
            Kind::TlbTlbShadow => {
                cardreader_play_tlb_tlb_shadow(pool_words, image, image_len, trace, trace_len, report, report_len)
            }
        }
    };
    (played.status, played.length)
}

pub fn played(kind: Kind, case: &Case) -> Outcome {
    let mut outcome = Outcome::before(case);
    (outcome.status, outcome.length) =
        play(kind, case.pool_words, &mut outcome.image, &case.trace, &mut outcome.report);
    outcome
}

/// Loads from each address in turn; answers the status and the sum.
pub fn loads(kind: LoadKind, case: &mut LoadCase) -> (u64, u64) {
    let LoadCase { guest_root, host_root, pool_words, .. } = *case;
    let (words, words_len) = (case.words.as_mut_ptr(), case.words.len());
    let (addresses, addresses_len) = (case.addresses.as_ptr(), case.addresses.len());
    // SAFETY: each pointer and length is of one live slice, and the words are borrowed as `&mut`.
    let loaded = unsafe {
        match kind {
            LoadKind::Nested => {
                cardreader_loads_nested(words, words_len, guest_root, host_root, addresses, addresses_len)
            }
            LoadKind::Shadow => {
                cardreader_loads_shadow(pool_words, words, words_len, guest_root, host_root, addresses, addresses_len)
            }
            LoadKind::Tlb => cardreader_loads_tlb(words, words_len, guest_root, host_root, addresses, addresses_len),
        }
    };
    (loaded.status, loaded.sum)
}
