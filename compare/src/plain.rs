//! Cases on the plain implementation, with counts of what its translators did.

use crate::generate::{Case, LoadCase};
use crate::outcome::{Kind, LoadKind, Outcome};
use crate::rules::{Nested, Refusal, Shadow, Tally, Tlb, Translator, loads, play};

/// What the translators of a play counted.
#[derive(Default)]
pub struct Counts {
    pub tlb_hits: u64,
    pub evictions: u64,
    pub shadow_hits: u64,
    pub resets: u64,
}

pub fn played(kind: Kind, case: &Case) -> (Outcome, Counts) {
    let mut outcome = Outcome::before(case);
    let Outcome { image, report, .. } = &mut outcome;
    let shadow = || Shadow::watched(vec![0; case.pool_words], Tally::default());
    let (answer, counts) = match kind {
        Kind::Nested => (play(image, &mut Nested, &case.trace, report), Counts::default()),
        Kind::Shadow => {
            let mut shadow = shadow();
            let answer = play(image, &mut shadow, &case.trace, report);
            (answer, Counts { shadow_hits: shadow.watch.hits, resets: shadow.watch.resets, ..Counts::default() })
        }
        Kind::TlbTlbShadow => {
            let lower = Tlb::watched(shadow(), Tally::default());
            let mut upper = Tlb::watched(lower, Tally::default());
            let answer = play(image, &mut upper, &case.trace, report);
            let (lower, shadow) = (&upper.below.watch, &upper.below.below.watch);
            let counts = Counts {
                tlb_hits: upper.watch.hits + lower.hits,
                evictions: upper.watch.evictions + lower.evictions,
                shadow_hits: shadow.hits,
                resets: shadow.resets,
            };
            (answer, counts)
        }
    };
    match answer {
        Ok(length) => outcome.length = length as u64,
        Err(refusal) => outcome.status = refusal.number(),
    }
    (outcome, counts)
}

/// Loads from each address of a case in turn; answers the sum.
pub fn loaded(kind: LoadKind, case: &mut LoadCase) -> Result<u64, Refusal> {
    match kind {
        LoadKind::Nested => loaded_on(&mut Nested, case),
        LoadKind::Shadow => loaded_on(&mut Shadow::new(vec![0; case.pool_words]), case),
        LoadKind::Tlb => loaded_on(&mut Tlb::new(Nested), case),
    }
}

fn loaded_on<T: Translator>(translator: &mut T, case: &mut LoadCase) -> Result<u64, Refusal> {
    loads(translator, &mut case.words, case.guest_root, case.host_root, &case.addresses)
}
