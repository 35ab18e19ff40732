//! Playing a trace on an image, and what the program makes of its input.

use super::machine::Machine;
use super::memory::{ByteMemory, FRAME_BYTES, FRAME_WORDS, MAX_FRAMES};
use super::nested::Nested;
use super::refusal::Refusal;
use super::report::ReportWriter;
use super::shadow::Shadow;
use super::tlb::Tlb;
use super::trace::{call_lines, lines, read_call, read_header, split_header};
use super::translator::Translator;

pub const MAX_CALLS: usize = 9_999;
pub const PROGRAM_FRAMES: usize = 8;
pub const PROGRAM_CALLS: usize = 500;
pub const PROGRAM_BYTES: usize = 16_384;
const PROGRAM_POOL_FRAMES: usize = 4;

/// The bytes that a report of so many calls must have room for.
fn room_for(calls: usize) -> usize {
    64 + 128 * calls
}

/// Plays a trace on an image, writes the report, and answers its length. A refused trace changes nothing.
pub fn play<T: Translator>(
    image: &mut [u8],
    translator: &mut T,
    trace: &[u8],
    report: &mut [u8],
) -> Result<usize, Refusal> {
    let (header, calls) = split_header(trace);
    judge_image(image.len(), header)?;
    let count = lines(calls).count();
    if count > MAX_CALLS || report.len() < room_for(count) {
        return Err(Refusal::Room);
    }
    let mut machine = Machine::new(ByteMemory::new(image), translator);
    let mut writer = ReportWriter::new(report);
    for (place, line) in lines(calls).enumerate() {
        writer.answer(place + 1, &machine.call(read_call(line)));
    }
    Ok(writer.length())
}

/// The image must have whole frames, 1 to 4,096, and as many as the header says.
fn judge_image(bytes: usize, header: &[u8]) -> Result<(), Refusal> {
    let frames = bytes / FRAME_BYTES;
    let whole = bytes.is_multiple_of(FRAME_BYTES) && (1..=MAX_FRAMES).contains(&frames);
    if whole && read_header(header) == Some(frames) { Ok(()) } else { Err(Refusal::Frames) }
}

/// The frames that an input of the program asks for.
fn judge_input(input: &[u8]) -> Result<usize, Refusal> {
    let (header, _) = split_header(input);
    let frames = read_header(header).filter(|&frames| frames <= PROGRAM_FRAMES).ok_or(Refusal::Frames)?;
    if input.len() > PROGRAM_BYTES || call_lines(input).count() > PROGRAM_CALLS {
        return Err(Refusal::Room);
    }
    Ok(frames)
}

/// What the program writes for an input: the reports of three machines, or the number of a refusal.
pub fn program(input: &[u8]) -> Vec<u8> {
    reports(input).unwrap_or_else(|refusal| format!("refused={}\n", refusal.number()).into_bytes())
}

fn reports(input: &[u8]) -> Result<Vec<u8>, Refusal> {
    let frames = judge_input(input)?;
    let shadow = || Shadow::new(vec![0; PROGRAM_POOL_FRAMES * FRAME_WORDS]);
    let mut output = Vec::new();
    append_report(&mut output, "nested", frames, &mut Nested, input)?;
    append_report(&mut output, "shadow", frames, &mut shadow(), input)?;
    append_report(&mut output, "tlb+tlb+shadow", frames, &mut Tlb::new(Tlb::new(shadow())), input)?;
    Ok(output)
}

/// Plays an input on zero words and appends the report, below a line with the machine's name.
fn append_report<T: Translator>(
    output: &mut Vec<u8>,
    name: &str,
    frames: usize,
    translator: &mut T,
    input: &[u8],
) -> Result<(), Refusal> {
    let mut image = vec![0; frames * FRAME_BYTES];
    let mut report = vec![0; room_for(call_lines(input).count())];
    let length = play(&mut image, translator, input, &mut report)?;
    output.extend_from_slice(format!("machine={name} frames={frames}\n").as_bytes());
    output.extend_from_slice(&report[..length]);
    Ok(())
}
