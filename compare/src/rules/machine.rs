//! The machine: a memory, two roots and a side, over a translator.

use super::access::{Access, page_of};
use super::calls::{Answer, Call, GuestCall, HostCall};
use super::faults::Fault;
use super::grants::Fence;
use super::memory::{Memory, Outside};
use super::refusal::Refusal;
use super::roots::{GuestRoot, HostRoot, MAX_ASID, Roots};
use super::stages::{World, word_in};
use super::translator::Translator;

#[derive(Clone, Copy, Debug, PartialEq, Eq)]
enum Side {
    Host,
    Guest,
}

pub struct Machine<'a, M, T> {
    memory: M,
    translator: &'a mut T,
    roots: Roots,
    side: Side,
}

impl<'a, M: Memory, T: Translator> Machine<'a, M, T> {
    /// A machine on the host side with both roots 0; the translator forgets what it knows.
    pub fn new(memory: M, translator: &'a mut T) -> Self {
        translator.host_fence();
        let roots = Roots { guest: GuestRoot::Bare, host: HostRoot::Bare };
        Self { memory, translator, roots, side: Side::Host }
    }

    pub fn call(&mut self, call: Call) -> Answer {
        let answer = match (call, self.side) {
            (Call::Unreadable, _) => Err(Refusal::Unreadable),
            (Call::Host(call), Side::Host) => self.host_call(call),
            (Call::Guest(call), Side::Guest) => self.guest_call(call),
            (Call::Host(_), Side::Guest) | (Call::Guest(_), Side::Host) => Err(Refusal::OtherSide),
        };
        answer.unwrap_or_else(Answer::Refused)
    }

    fn host_call(&mut self, call: HostCall) -> Result<Answer, Refusal> {
        match call {
            HostCall::Load { pa } => return self.host_load(pa).map(Answer::Word),
            HostCall::Store { pa, data } => self.host_store(pa, data)?,
            HostCall::Root { register } => self.host_root(register)?,
            HostCall::Fence => self.translator.host_fence(),
            HostCall::Enter => self.enter(),
        }
        Ok(Answer::Done)
    }

    fn guest_call(&mut self, call: GuestCall) -> Result<Answer, Refusal> {
        match call {
            GuestCall::Read { access } => return Ok(self.read(&access).map_or_else(Answer::Faulted, Answer::Word)),
            GuestCall::Store { access, data } => {
                return Ok(self.store(&access, data).map_or_else(Answer::Faulted, |()| Answer::Done));
            }
            GuestCall::Fence { va, asid } => self.guest_fence(va, asid)?,
            GuestCall::Root { register } => self.guest_root(register)?,
            GuestCall::Leave => self.side = Side::Host,
        }
        Ok(Answer::Done)
    }

    fn host_load(&self, pa: u64) -> Result<u64, Refusal> {
        self.memory.read(host_word(pa)?).map_err(|Outside| Refusal::HostAddress)
    }

    fn host_store(&mut self, pa: u64, data: u64) -> Result<(), Refusal> {
        self.memory.write(host_word(pa)?, data).map_err(|Outside| Refusal::HostAddress)
    }

    pub fn host_root(&mut self, register: u64) -> Result<(), Refusal> {
        self.roots.host = HostRoot::decode(register)?;
        Ok(())
    }

    pub fn enter(&mut self) {
        self.side = Side::Guest;
    }

    pub fn guest_root(&mut self, register: u64) -> Result<(), Refusal> {
        self.roots.guest = GuestRoot::decode(register)?;
        Ok(())
    }

    pub fn guest_fence(&mut self, va: Option<u64>, asid: Option<u16>) -> Result<(), Refusal> {
        if asid.is_some_and(|asid| asid > MAX_ASID) {
            return Err(Refusal::FenceAsid);
        }
        self.translator.guest_fence(Fence { page: va.map(page_of), asid });
        Ok(())
    }

    /// A load or a fetch.
    pub fn read(&mut self, access: &Access) -> Result<u64, Fault> {
        let word = self.reach(access)?;
        Ok(self.memory.read(word).expect("a translator gives frames of the memory"))
    }

    pub fn store(&mut self, access: &Access, data: u64) -> Result<(), Fault> {
        let word = self.reach(access)?;
        self.memory.write(word, data).expect("a translator gives frames of the memory");
        Ok(())
    }

    /// The word of host memory that an access goes to.
    fn reach(&mut self, access: &Access) -> Result<u64, Fault> {
        let world = World { memory: &self.memory, roots: self.roots };
        let reply = self.translator.access(&world, access)?;
        Ok(word_in(reply.frame, access.va))
    }
}

/// The word at a host address.
fn host_word(pa: u64) -> Result<u64, Refusal> {
    if pa.is_multiple_of(8) { Ok(pa / 8) } else { Err(Refusal::HostAddress) }
}
