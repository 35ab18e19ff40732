//! The calls of a machine and their answers.

use super::access::Access;
use super::faults::Fault;
use super::refusal::Refusal;

#[derive(Clone, Copy, Debug, PartialEq, Eq)]
pub enum HostCall {
    Load { pa: u64 },
    Store { pa: u64, data: u64 },
    Root { register: u64 },
    Fence,
    Enter,
}

#[derive(Clone, Copy, Debug, PartialEq, Eq)]
pub enum GuestCall {
    /// A load or a fetch.
    Read {
        access: Access,
    },
    Store {
        access: Access,
        data: u64,
    },
    /// None stands for every address, or every ASID.
    Fence {
        va: Option<u64>,
        asid: Option<u16>,
    },
    Root {
        register: u64,
    },
    Leave,
}

#[derive(Clone, Copy, Debug, PartialEq, Eq)]
pub enum Call {
    Host(HostCall),
    Guest(GuestCall),
    /// A line that is the text of no call.
    Unreadable,
}

#[derive(Clone, Copy, Debug, PartialEq, Eq)]
pub enum Answer {
    Done,
    Word(u64),
    Faulted(Fault),
    Refused(Refusal),
}
