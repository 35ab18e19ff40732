//! Root registers.

use super::refusal::Refusal;

pub const MAX_ASID: u16 = 15;

#[derive(Clone, Copy, Debug, PartialEq, Eq)]
pub enum GuestRoot {
    Bare,
    Sv39 { asid: u16, frame: u64 },
}

#[derive(Clone, Copy, Debug, PartialEq, Eq)]
pub enum HostRoot {
    Bare,
    Sv39x4 { frame: u64 },
}

#[derive(Clone, Copy, Debug, PartialEq, Eq)]
pub struct Roots {
    pub guest: GuestRoot,
    pub host: HostRoot,
}

/// The mode, the bits 59 to 44, and the frame of a register.
fn fields(register: u64) -> (u64, u16, u64) {
    (register >> 60, (register >> 44) as u16, register & ((1 << 44) - 1))
}

impl GuestRoot {
    pub fn decode(register: u64) -> Result<Self, Refusal> {
        match fields(register) {
            (0, 0, 0) => Ok(Self::Bare),
            (8, asid, frame) if asid <= MAX_ASID => Ok(Self::Sv39 { asid, frame }),
            _ => Err(Refusal::GuestRoot),
        }
    }
}

impl HostRoot {
    pub fn decode(register: u64) -> Result<Self, Refusal> {
        match fields(register) {
            (0, 0, 0) => Ok(Self::Bare),
            (8, 0, frame) if frame.is_multiple_of(4) => Ok(Self::Sv39x4 { frame }),
            _ => Err(Refusal::HostRoot),
        }
    }
}
