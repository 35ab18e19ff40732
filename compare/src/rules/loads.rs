//! Many loads on one machine.

use super::access::{Access, Kind, Mode};
use super::machine::Machine;
use super::memory::WordMemory;
use super::refusal::Refusal;
use super::translator::Translator;

/// Loads from each address in turn, in mode s with SUM and MXR 0, and adds up the words modulo 2^64.
pub fn loads<T: Translator>(
    translator: &mut T,
    words: &mut [u64],
    guest_root: u64,
    host_root: u64,
    addresses: &[u64],
) -> Result<u64, Refusal> {
    let mut machine = Machine::new(WordMemory::new(words), translator);
    machine.host_root(host_root)?;
    machine.enter();
    machine.guest_root(guest_root)?;
    let load = |&va| {
        let access = Access { kind: Kind::Load, mode: Mode::Supervisor, sum: false, mxr: false, va };
        machine.read(&access).unwrap_or(0)
    };
    Ok(addresses.iter().map(load).fold(0, u64::wrapping_add))
}
