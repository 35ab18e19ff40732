//! Compares what the proved program writes with what the plain side says that it writes.

use crate::coverage::Coverage;
use crate::generate::{Case, needed_room, program_input};
use crate::outcome::Kind;
use crate::plain;
use crate::rules::{FRAME_BYTES, FRAME_WORDS, program};
use crate::shrink::shrunk;
use std::fs::{self, File};
use std::io;
use std::path::{Path, PathBuf};
use std::process::{Command, Stdio};

/// The proved program, and a file that it is given as standard input.
struct Program<'a> {
    path: &'a Path,
    input: PathBuf,
}

impl Program<'_> {
    /// What the program writes for an input. It must end with status 0.
    fn output(&self, input: &[u8]) -> io::Result<Vec<u8>> {
        fs::write(&self.input, input)?;
        let file = File::open(&self.input)?;
        let output = Command::new(self.path).stdin(Stdio::from(file)).output()?;
        if output.status.success() {
            Ok(output.stdout)
        } else {
            Err(io::Error::other(format!("the program ended with {}", output.status)))
        }
    }

    fn differs(&self, input: &[u8]) -> bool {
        self.output(input).map_or(true, |output| output != program(input))
    }
}

/// Compares so many inputs; answers how many of them differ.
pub fn compare(path: &Path, seed: u64, count: u64) -> io::Result<u64> {
    let file = format!("compare-{}.trace", std::process::id());
    let proved = Program { path, input: std::env::temp_dir().join(file) };
    proved.output(b"")?;
    let mut coverage = Coverage::default();
    let mut differences = 0;
    for seed in (0..count).map(|place| seed.wrapping_add(place)) {
        let input = program_input(seed);
        count_input(&mut coverage, &input);
        if proved.differs(&input) {
            differences += 1;
            let input = shrunk(&input, |input| proved.differs(input));
            print_difference(&proved, seed, &input)?;
        }
    }
    fs::remove_file(&proved.input)?;
    println!("{coverage}{count} inputs compared, {differences} differ");
    Ok(differences)
}

fn print_difference(proved: &Program, seed: u64, input: &[u8]) -> io::Result<()> {
    println!("seed {seed} differs. Input:\n{}", input.escape_ascii());
    println!("{}", String::from_utf8_lossy(input));
    println!("the program writes:\n{}", String::from_utf8_lossy(&proved.output(input)?));
    println!("the plain side writes:\n{}", String::from_utf8_lossy(&program(input)));
    Ok(())
}

/// Counts what an input comes to.
fn count_input(coverage: &mut Coverage, input: &[u8]) {
    let output = program(input);
    if let Some([number, ..]) = output.strip_prefix(b"refused=") {
        return coverage.add_refused(number - b'0');
    }
    let frames = output.strip_prefix(b"machine=nested frames=").map_or(0, |rest| usize::from(rest[0] - b'0'));
    let image = vec![0; frames * FRAME_BYTES];
    let case = Case { image, trace: input.to_vec(), room: needed_room(input), pool_words: 4 * FRAME_WORDS };
    coverage.add(&case, &Kind::ALL.map(|kind| plain::played(kind, &case)));
}
