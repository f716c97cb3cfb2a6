use crate::asked::Asked;
use outer_world::Outer;
use owned_lists::Octets;
use sm_world::Failure;
use std::alloc::Global;

impl<W: Outer> Outer for Asked<W> {
    fn open_outer(&mut self, path: &str) -> Result<(), Failure> {
        self.note("open_outer", &[path])?;
        self.world.open_outer(path)
    }

    fn fetch(&mut self, alloc: Global, path: &str) -> Result<Octets, Failure> {
        self.note("fetch", &[path])?;
        Ok(Octets::from_slice(alloc, self.file.as_slice())?)
    }
}
