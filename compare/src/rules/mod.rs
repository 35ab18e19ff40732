//! A plain implementation of the rules: memories, the two-stage walk, translators, the machine, traces and reports.

mod access;
mod calls;
mod entry;
mod faults;
mod grants;
mod loads;
mod machine;
mod memory;
mod nested;
mod play;
mod refusal;
mod report;
mod roots;
mod shadow;
mod stages;
#[cfg(test)]
mod tests;
mod tlb;
mod trace;
mod translator;
mod walk;
mod watch;

pub use loads::loads;
pub use memory::{FRAME_BYTES, FRAME_WORDS, MAX_FRAMES};
pub use nested::Nested;
pub use play::{MAX_CALLS, PROGRAM_BYTES, PROGRAM_CALLS, play, program};
pub use refusal::Refusal;
pub use shadow::Shadow;
pub use tlb::Tlb;
pub use trace::call_lines;
pub use translator::Translator;
pub use watch::Tally;
