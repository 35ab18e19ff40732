//! The translator that walks at every access.

use super::access::Access;
use super::faults::Fault;
use super::grants::{Fence, Grant};
use super::memory::Memory;
use super::stages::World;
use super::translator::{Reply, Translator};

#[derive(Debug, Default)]
pub struct Nested;

impl Translator for Nested {
    fn access<M: Memory>(&mut self, world: &World<M>, access: &Access) -> Result<Reply, Fault> {
        let reached = world.translate(access)?;
        let grant = Grant::fullest(access.page(), world.roots.guest, &reached);
        Ok(Reply { frame: reached.frame, grant })
    }

    fn guest_fence(&mut self, _fence: Fence) {}

    fn host_fence(&mut self) {}
}
