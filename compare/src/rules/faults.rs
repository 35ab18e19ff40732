//! Faults, held as they happen, and the six numbers that are reported of one.

use super::access::Kind;
use super::memory::Outside;
use super::walk::WalkFault;

/// What can go wrong in the host stage of one guest-physical address.
#[derive(Clone, Copy, Debug, PartialEq, Eq)]
pub enum HostFault {
    /// A bit of 63 to 41 is set.
    OutOfRange,
    Walk(WalkFault<Outside>),
    /// The leaf does not allow the access.
    Denied {
        level: u8,
    },
    /// The word that was wanted lies outside the memory.
    Outside,
}

/// A guest-physical address that the host stage does not reach.
#[derive(Clone, Copy, Debug, PartialEq, Eq)]
pub struct Unreached {
    pub gpa: u64,
    pub fault: HostFault,
}

#[derive(Clone, Copy, Debug, PartialEq, Eq)]
pub enum GuestFault {
    NotCanonical,
    Walk(WalkFault<Unreached>),
    /// The leaf does not allow the access.
    Denied {
        level: u8,
    },
}

#[derive(Clone, Copy, Debug, PartialEq, Eq)]
pub enum Reason {
    Unaligned,
    Guest(GuestFault),
    /// The final guest-physical address is not reached.
    Final(Unreached),
}

/// A fault of an access.
#[derive(Clone, Copy, Debug, PartialEq, Eq)]
pub struct Fault {
    pub kind: Kind,
    pub va: u64,
    pub reason: Reason,
}

/// What is reported of a fault.
#[derive(Clone, Copy, Debug, PartialEq, Eq)]
pub struct FaultNumbers {
    pub cause: u8,
    pub va: u64,
    pub gpa: u64,
    pub stage: u8,
    pub guest_level: u8,
    pub host_level: u8,
}

/// The level of a stage that is not at work.
const NO_LEVEL: u8 = 3;

impl Fault {
    pub fn numbers(&self) -> FaultNumbers {
        let place = self.reason.place();
        FaultNumbers {
            cause: cause(place.stage, self.kind),
            va: self.va,
            gpa: place.gpa,
            stage: place.stage,
            guest_level: place.guest_level,
            host_level: place.host_level,
        }
    }
}

struct Place {
    stage: u8,
    gpa: u64,
    guest_level: u8,
    host_level: u8,
}

impl Reason {
    fn place(&self) -> Place {
        match *self {
            Self::Unaligned => Place::without_host(0, NO_LEVEL),
            Self::Guest(GuestFault::NotCanonical) => Place::without_host(1, NO_LEVEL),
            Self::Guest(GuestFault::Denied { level } | GuestFault::Walk(WalkFault::Stopped { level })) => {
                Place::without_host(1, level)
            }
            Self::Guest(GuestFault::Walk(WalkFault::Unread { level, fault })) => fault.place(level),
            Self::Final(unreached) => unreached.place(NO_LEVEL),
        }
    }
}

impl Place {
    fn without_host(stage: u8, guest_level: u8) -> Self {
        Self { stage, gpa: 0, guest_level, host_level: NO_LEVEL }
    }
}

impl Unreached {
    fn place(&self, guest_level: u8) -> Place {
        let (stage, host_level) = match self.fault {
            HostFault::OutOfRange => (2, NO_LEVEL),
            HostFault::Denied { level } | HostFault::Walk(WalkFault::Stopped { level }) => (2, level),
            HostFault::Walk(WalkFault::Unread { level, fault: Outside }) => (3, level),
            HostFault::Outside => (3, NO_LEVEL),
        };
        let gpa = if stage == 2 { self.gpa >> 2 } else { 0 };
        Place { stage, gpa, guest_level, host_level }
    }
}

fn cause(stage: u8, kind: Kind) -> u8 {
    let [load, store, fetch] = match stage {
        0 => [4, 6, 0],
        1 => [13, 15, 12],
        2 => [21, 23, 20],
        _ => [5, 7, 1],
    };
    match kind {
        Kind::Load => load,
        Kind::Store => store,
        Kind::Fetch => fetch,
    }
}
