//! What a play of a case leaves behind, on either side.

use crate::generate::Case;

/// The translators that traces are played on.
#[derive(Clone, Copy, Debug, PartialEq, Eq)]
pub enum Kind {
    Nested,
    Shadow,
    TlbTlbShadow,
}

impl Kind {
    pub const ALL: [Self; 3] = [Self::Nested, Self::Shadow, Self::TlbTlbShadow];

    pub fn name(self) -> &'static str {
        match self {
            Self::Nested => "nested",
            Self::Shadow => "shadow",
            Self::TlbTlbShadow => "tlb+tlb+shadow",
        }
    }
}

/// The translators that runs of loads are made on.
#[derive(Clone, Copy, Debug, PartialEq, Eq)]
pub enum LoadKind {
    Nested,
    Shadow,
    Tlb,
}

impl LoadKind {
    pub const ALL: [Self; 3] = [Self::Nested, Self::Shadow, Self::Tlb];
}

/// Everything that a play answers or may change.
#[derive(Debug, PartialEq, Eq)]
pub struct Outcome {
    /// 0, or the number of a refusal.
    pub status: u64,
    /// The length of the report, 0 where refused.
    pub length: u64,
    pub image: Vec<u8>,
    /// The whole buffer, also past the report.
    pub report: Vec<u8>,
}

impl Outcome {
    /// What there is before a play: the image of the case, and a buffer that holds no zeros and no text.
    pub fn before(case: &Case) -> Self {
        let report = (0..case.room).map(|place| 0x80 | place as u8).collect();
        Self { status: 0, length: 0, image: case.image.clone(), report }
    }

    /// The report, without the bytes past it.
    pub fn text(&self) -> &[u8] {
        &self.report[..self.length as usize]
    }
}
