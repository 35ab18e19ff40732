//! Plays cases on both sides and compares everything that they answer and leave.

use crate::coverage::Coverage;
use crate::generate::{self, Case, LoadCase, systematic};
use crate::outcome::{Kind, LoadKind, Outcome};
use crate::shrink::shrunk;
use crate::{plain, proved};

/// The search stops after so many differences.
const ENOUGH: u64 = 10;

#[derive(Default)]
struct Check {
    coverage: Coverage,
    differences: u64,
}

/// Compares every systematic case, so many random ones, and as many runs of loads; answers how many plays differ.
pub fn compare(seed: u64, count: u64) -> u64 {
    let mut check = Check::default();
    for (name, cases) in systematic::all() {
        let compared = cases.take_while(|case| check.case(name, case)).count();
        println!("{name}: {compared} traces");
    }
    println!("\nsystematic cases:\n{}", check.coverage);
    check.coverage = Coverage::default();
    let mut seeds = seed..seed.saturating_add(count);
    seeds.clone().all(|seed| check.case(&format!("seed {seed}"), &generate::case(seed)));
    println!("random cases, seeds from {seed}:\n{}", check.coverage);
    seeds.all(|seed| check.loads(seed));
    println!("runs of loads: {count} on each of 3 translators");
    println!("{} differences", check.differences);
    check.differences
}

impl Check {
    /// Compares a case on every translator; answers whether to go on.
    fn case(&mut self, name: &str, case: &Case) -> bool {
        let plain = Kind::ALL.map(|kind| plain::played(kind, case));
        for (kind, (plain, _)) in Kind::ALL.into_iter().zip(&plain) {
            if let Some(difference) = difference(plain, &proved::played(kind, case)) {
                self.differences += 1;
                report(name, kind, case, &difference);
            }
        }
        self.coverage.add(case, &plain);
        self.differences < ENOUGH
    }

    /// Compares runs of loads on every translator; answers whether to go on.
    fn loads(&mut self, seed: u64) -> bool {
        let case = generate::load_case(seed);
        for kind in LoadKind::ALL {
            let (mut one, mut other) = (case.clone(), case.clone());
            let plain = plain_loads(kind, &mut one);
            let proved = proved::loads(kind, &mut other);
            if plain != proved || one.words != other.words {
                self.differences += 1;
                println!("loads of seed {seed} on {kind:?}: plain {plain:?}, proved {proved:?}");
            }
        }
        self.differences < ENOUGH
    }
}

/// The status and the sum of a run of loads.
fn plain_loads(kind: LoadKind, case: &mut LoadCase) -> (u64, u64) {
    let loaded = plain::loaded(kind, case);
    loaded.map_or_else(|refusal| (refusal.number(), 0), |sum| (0, sum))
}

/// The first thing in which two outcomes differ.
fn difference(plain: &Outcome, proved: &Outcome) -> Option<String> {
    if plain == proved {
        return None;
    }
    if (plain.status, plain.length) != (proved.status, proved.length) {
        let status = format!("status: plain {}, proved {}", plain.status, proved.status);
        return Some(format!("{status}; length: plain {}, proved {}", plain.length, proved.length));
    }
    let first = |one: &[u8], other: &[u8]| one.iter().zip(other).position(|(one, other)| one != other);
    if let Some(place) = first(&plain.report, &proved.report) {
        return Some(format!("byte {place} of the report buffer, whose report has {} bytes", plain.length));
    }
    first(&plain.image, &proved.image).map(|place| format!("byte {place} of the image"))
}

/// Prints a difference with a small trace that shows one, and the reports of both sides.
fn report(name: &str, kind: Kind, case: &Case, difference: &str) {
    println!("{name}, {}: {difference}", kind.name());
    let with = |trace: &[u8]| Case { trace: trace.to_vec(), ..case.clone() };
    let differs = |trace: &[u8]| {
        let case = with(trace);
        plain::played(kind, &case).0 != proved::played(kind, &case)
    };
    let case = with(&shrunk(&case.trace, differs));
    let sides = [("plain", plain::played(kind, &case).0), ("proved", proved::played(kind, &case))];
    println!("pool of {} words, image of {} bytes, room {}", case.pool_words, case.image.len(), case.room);
    println!("{}", String::from_utf8_lossy(&case.trace));
    for (side, outcome) in sides {
        println!("{side}: status {}\n{}", outcome.status, String::from_utf8_lossy(outcome.text()));
    }
}
