//! Compares the proved player with a plain one.

// Without the proved library a part of the rest has no use.
#![cfg_attr(not(feature = "proved"), allow(dead_code, unused_imports))]

#[cfg(feature = "proved")]
mod bench;
#[cfg(feature = "proved")]
mod check;
mod coverage;
mod generate;
mod outcome;
mod plain;
mod program;
#[cfg(feature = "proved")]
mod proved;
mod rules;
mod shrink;

use std::io::{self, Read, Write};
use std::path::Path;
use std::process::ExitCode;

const USAGE: &str = "usage: compare check [SEED] [COUNT]
       compare bench
       compare program PROGRAM [SEED] [COUNT]
       compare cover [SEED] [COUNT]
       compare input SEED
       compare play < TRACE";

fn main() -> ExitCode {
    let arguments: Vec<String> = std::env::args().skip(1).collect();
    let words: Vec<&str> = arguments.iter().map(String::as_str).collect();
    match run(&words) {
        Ok(true) => ExitCode::SUCCESS,
        Ok(false) => ExitCode::FAILURE,
        Err(message) => {
            eprintln!("{message}");
            ExitCode::from(2)
        }
    }
}

/// Answers whether both sides agree.
fn run(words: &[&str]) -> Result<bool, String> {
    match words {
        ["play"] => play().map(|()| true).map_err(|error| error.to_string()),
        ["input", seed] => {
            let input = generate::program_input(number(seed)?);
            io::stdout().write_all(&input).map(|()| true).map_err(|error| error.to_string())
        }
        ["program", path, rest @ ..] => {
            let (seed, count) = seed_and_count(rest, 3_000)?;
            let differences = program::compare(Path::new(path), seed, count);
            differences.map(|differences| differences == 0).map_err(|error| format!("{path}: {error}"))
        }
        ["cover", rest @ ..] => {
            let (seed, count) = seed_and_count(rest, 20_000)?;
            coverage::print_plain_side(seed, count);
            Ok(true)
        }
        #[cfg(feature = "proved")]
        ["check", rest @ ..] => {
            let (seed, count) = seed_and_count(rest, 20_000)?;
            Ok(check::compare(seed, count) == 0)
        }
        #[cfg(feature = "proved")]
        ["bench"] => {
            bench::run();
            Ok(true)
        }
        #[cfg(not(feature = "proved"))]
        ["check" | "bench", ..] => Err("built without the proved library: see compare/README.md".into()),
        _ => Err(USAGE.into()),
    }
}

fn number(word: &str) -> Result<u64, String> {
    word.parse().map_err(|_| format!("{word} is no number"))
}

fn seed_and_count(words: &[&str], usual_count: u64) -> Result<(u64, u64), String> {
    match words {
        [] => Ok((1, usual_count)),
        [seed] => Ok((number(seed)?, usual_count)),
        [seed, count] => Ok((number(seed)?, number(count)?)),
        _ => Err(USAGE.into()),
    }
}

/// Does what the program does, on the plain side.
fn play() -> io::Result<()> {
    let mut input = Vec::new();
    io::stdin().read_to_end(&mut input)?;
    io::stdout().write_all(&rules::program(&input))
}
