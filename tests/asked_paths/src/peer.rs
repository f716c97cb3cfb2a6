use crate::asked::Asked;
use client_peer::Peer;
use owned_lists::Octets;
use sm_world::Failure;

impl<P: Peer> Peer for Asked<P> {
    fn connect(&mut self, path: &str) -> Result<(), Failure> {
        self.note("connect", &[path])?;
        self.world.connect(path)
    }

    fn receive(&mut self, into: &mut [u8]) -> Result<usize, Failure> {
        self.world.receive(into)
    }

    fn deliver(&mut self, bytes: &[u8]) -> Result<(), Failure> {
        self.world.deliver(bytes)
    }

    fn fetch(&mut self, path: &str) -> Result<Octets, Failure> {
        self.note("fetch", &[path])?;
        self.world.fetch(path)
    }
}
