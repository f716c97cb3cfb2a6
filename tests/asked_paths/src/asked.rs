use owned_lists::{Command, NoMemory, Octets};
use sm_world::{Conn, Console, Disk, Event, Failed, Failure, Links, Spawner, Told};
use std::alloc::Global;

/// A world around a world, which notes the calls that open something, each on a line with its paths. From
/// an outer manager's files it gives what it was made with.
#[derive(Drop)]
pub struct Asked<W: Told> {
    pub world: W,
    pub file: Octets,
    pub paths: String,
}

impl<W: Told> Asked<W> {
    /// Around this world, with these bytes in an outer manager's files.
    pub fn new(alloc: Global, world: W, file: Octets) -> Asked<W> {
        Asked {
            world,
            file,
            paths: String::new(alloc),
        }
    }

    /// Notes a call with its paths.
    pub fn note(&mut self, call: &str, paths: &[&str]) -> Result<(), Failure> {
        self.paths.push_str(call).map_err(NoMemory::from)?;
        for path in paths {
            self.paths.push_str(" ").map_err(NoMemory::from)?;
            self.paths.push_str(path).map_err(NoMemory::from)?;
        }
        self.paths.push_str("\n").map_err(NoMemory::from)?;
        Ok(())
    }
}

impl<W: Told> Told for Asked<W> {
    ghost outside = { λ asked. W.outside asked.world };
}

impl<W: Links> Links for Asked<W> {
    fn listen(&mut self, socket: &str, control: &str) -> Result<(), Failure> {
        self.note("listen", &[socket, control])?;
        self.world.listen(socket, control)
    }

    fn next(&mut self) -> Result<Event, Failure> {
        self.world.next()
    }

    fn send(&mut self, to: Conn, bytes: &[u8]) -> Result<(), Failure> {
        self.world.send(to, bytes)
    }

    fn shut(&mut self, to: Conn) -> Result<(), Failure> {
        self.world.shut(to)
    }
}

impl<W: Spawner> Spawner for Asked<W> {
    fn start(&mut self, command: &Command) -> Result<bool, NoMemory> {
        self.world.start(command)
    }
}

impl<W: Console> Console for Asked<W> {
    fn read(&mut self, into: &mut [u8]) -> Result<usize, Failure> {
        self.world.read(into)
    }

    fn print(&mut self, bytes: &[u8]) -> Result<(), Failure> {
        self.world.print(bytes)
    }
}

impl<W: Disk> Disk for Asked<W> {
    ghost sized = { λ asked. W.sized asked.world };

    fn attach(&mut self, path: &str) -> Result<(), Failure> {
        self.note("attach", &[path])?;
        self.world.attach(path)
    }

    fn size(&mut self) -> Result<u64, Failure> {
        self.world.size()
    }

    fn read_at(&mut self, at: u64, into: &mut [u8]) -> Result<(), Failure> {
        self.world.read_at(at, into)
    }

    fn write_at(&mut self, at: u64, bytes: &[u8]) -> Result<(), Failed> {
        self.world.write_at(at, bytes)
    }

    fn sync(&mut self) -> Result<(), Failed> {
        self.world.sync()
    }

    fn publish(&mut self, path: &str, bytes: &[u8]) -> Result<(), Failure> {
        self.note("publish", &[path])?;
        self.world.publish(path, bytes)
    }
}
