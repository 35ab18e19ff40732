//! What the compared traces came to, so that a reader sees how much was reached.

use crate::generate::{self, Case, systematic};
use crate::outcome::{Kind, Outcome};
use crate::plain::{self, Counts};
use crate::rules::call_lines;
use std::fmt::{self, Display, Formatter};

#[derive(Default)]
pub struct Coverage {
    traces: u64,
    plays: u64,
    refused_plays: [u64; 10],
    calls: u64,
    loads: u64,
    stores: u64,
    fetches: u64,
    other: u64,
    faults: [u64; 4],
    refusals: [u64; 10],
    stale: u64,
    counts: Counts,
}

/// Prints what every systematic case and so many random ones come to on the plain side, compared with nothing.
pub fn print_plain_side(seed: u64, count: u64) {
    let systematic = systematic::all().into_iter().flat_map(|(_, cases)| cases);
    println!("systematic cases:\n{}", of_plain_side(systematic));
    let random = (0..count).map(|place| generate::case(seed.wrapping_add(place)));
    println!("random cases, seeds from {seed}:\n{}", of_plain_side(random));
}

fn of_plain_side(cases: impl Iterator<Item = Case>) -> Coverage {
    let mut coverage = Coverage::default();
    for case in cases {
        coverage.add(&case, &Kind::ALL.map(|kind| plain::played(kind, &case)));
    }
    coverage
}

/// The text of a report line after its number.
fn answer(line: &[u8]) -> &[u8] {
    let start = line.iter().position(|&byte| byte == b' ').unwrap_or(line.len());
    &line[start..]
}

/// The digit after a key in a line.
fn digit_after(line: &[u8], key: &[u8]) -> usize {
    let place = line.windows(key.len()).position(|window| window == key).map(|place| place + key.len());
    place.and_then(|place| line.get(place)).map_or(0, |&digit| usize::from(digit - b'0'))
}

impl Coverage {
    /// Counts a case by its outcomes on the plain side, in the order of `Kind::ALL`.
    pub fn add(&mut self, case: &Case, played: &[(Outcome, Counts)]) {
        self.traces += 1;
        for (kind, (outcome, counts)) in Kind::ALL.iter().zip(played) {
            self.plays += 1;
            if outcome.status != 0 {
                self.refused_plays[outcome.status as usize] += 1;
            } else {
                self.add_report(&case.trace, outcome.text());
            }
            if *kind != Kind::Nested {
                self.stale += differing_lines(played[0].0.text(), outcome.text());
            }
            self.counts.tlb_hits += counts.tlb_hits;
            self.counts.evictions += counts.evictions;
            self.counts.shadow_hits += counts.shadow_hits;
            self.counts.resets += counts.resets;
        }
    }

    /// Counts a trace that is refused whole.
    pub fn add_refused(&mut self, number: u8) {
        self.traces += 1;
        self.refused_plays[usize::from(number)] += 1;
    }

    fn add_report(&mut self, trace: &[u8], report: &[u8]) {
        let answers = report.split_inclusive(|&byte| byte == b'\n').map(answer);
        for (call, answer) in call_lines(trace).zip(answers) {
            self.calls += 1;
            if answer.starts_with(b" ans=fault") {
                self.faults[digit_after(answer, b"stage=") % 4] += 1;
            } else if answer.starts_with(b" ans=refused") {
                self.refusals[digit_after(answer, b"number=")] += 1;
            } else {
                match call.get(3) {
                    Some(b'l') => self.loads += 1,
                    Some(b's') => self.stores += 1,
                    Some(b'f') => self.fetches += 1,
                    _ => self.other += 1,
                }
            }
        }
    }
}

fn differing_lines(one: &[u8], other: &[u8]) -> u64 {
    let lines = |text| <[u8]>::split(text, |&byte| byte == b'\n');
    lines(one).zip(lines(other)).filter(|(one, other)| one != other).count() as u64
}

impl Display for Coverage {
    fn fmt(&self, f: &mut Formatter<'_>) -> fmt::Result {
        let [refused_1, refused_9] = [1, 9].map(|number| self.refused_plays[number]);
        writeln!(f, "traces {}, plays of them {}", self.traces, self.plays)?;
        writeln!(f, "plays refused whole: number 1 {refused_1}, number 9 {refused_9}")?;
        writeln!(f, "calls {}", self.calls)?;
        writeln!(f, "accesses granted: loads {}, stores {}, fetches {}", self.loads, self.stores, self.fetches)?;
        writeln!(f, "other calls done: {}", self.other)?;
        write!(f, "faults:")?;
        for (stage, count) in self.faults.iter().enumerate() {
            write!(f, " stage {stage} {count}")?;
        }
        write!(f, "\ncalls refused:")?;
        for number in 3..=8 {
            write!(f, " number {number} {}", self.refusals[number])?;
        }
        let counts = &self.counts;
        writeln!(f, "\nhits: TLB {}, shadow {}", counts.tlb_hits, counts.shadow_hits)?;
        writeln!(f, "ways replaced {}, pools reset for want of frames {}", counts.evictions, counts.resets)?;
        writeln!(f, "answers that differ from nested's on the same trace: {}", self.stale)
    }
}
