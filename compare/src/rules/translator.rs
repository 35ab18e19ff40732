//! What answers the accesses of a guest.

use super::access::Access;
use super::faults::Fault;
use super::grants::{Fence, Grant};
use super::memory::Memory;
use super::stages::World;

/// The frame that an access goes to, and the grant that is handed out with it.
pub struct Reply {
    pub frame: u64,
    pub grant: Option<Grant>,
}

pub trait Translator {
    fn access<M: Memory>(&mut self, world: &World<M>, access: &Access) -> Result<Reply, Fault>;

    fn guest_fence(&mut self, fence: Fence);

    fn host_fence(&mut self);
}
