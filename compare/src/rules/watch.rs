//! What a translator tells of its work to one who counts it.

/// Told of events inside a translator. It never changes what the translator does.
pub trait Watch {
    /// A remembered grant answered.
    fn hit(&mut self) {}

    /// A grant took the place of another page's or ASID's.
    fn evicted(&mut self) {}

    /// The pool was reset for want of unused frames.
    fn ran_out(&mut self) {}
}

/// Counts nothing, at no cost.
#[derive(Debug, Default)]
pub struct Silent;

impl Watch for Silent {}

#[derive(Debug, Default)]
pub struct Tally {
    pub hits: u64,
    pub evictions: u64,
    pub resets: u64,
}

impl Watch for Tally {
    fn hit(&mut self) {
        self.hits += 1;
    }

    fn evicted(&mut self) {
        self.evictions += 1;
    }

    fn ran_out(&mut self) {
        self.resets += 1;
    }
}
