use outer_world::Outer;
use owned_lists::{NoMemory, NumberList, Octets};
use sm_world::{EventList, Failure, MemWorld, SteadyWorld};
use std::alloc::{Alloc, Global};
use std::test::Fail;
use test_tables::{expect_rows, text_of};

/// A world to which nothing comes, and whose call of this number fails.
fn world_failing(alloc: Global, number: u64) -> Result<MemWorld, NoMemory> {
    let mut failing = NumberList::new(alloc);
    failing.push(number)?;
    let (events, nothing) = (EventList::new(alloc), Octets::new(alloc));
    MemWorld::new(alloc, events, nothing, Octets::new(alloc), failing)
}

/// How many bytes the file of the outer cookie has, behind the connection to the outer manager.
fn fetched<W: Outer>(alloc: Global, world: &mut W) -> Result<usize, Failure> {
    world.open_outer("/outer")?;
    let file = world.fetch(alloc, "/authority")?;
    Ok(file.len())
}

fn fetched_failing(alloc: Global, number: &str) -> Result<String, Fail> {
    let mut world = world_failing(alloc, number.parse::<u64>()?)?;
    text_of(alloc, &fetched(alloc, &mut world))
}

const CALLS: &str = "\
1 => Err(Failed)
2 => Err(Failed)
3 => Ok(0)";

#[test]
fn each_call_is_numbered(rt: HostRuntime) -> Result<(), Fail> {
    expect_rows(&rt, CALLS, fetched_failing)
}

#[test]
fn a_steady_world_has_an_empty_file(rt: HostRuntime) -> Result<(), Fail> {
    let alloc = rt.alloc();
    let (events, nothing) = (EventList::new(alloc), Octets::new(alloc));
    let mut world = SteadyWorld::new(alloc, events, nothing, Octets::new(alloc))?;
    assert!(rt; matches!(fetched(alloc, &mut world), Ok(0)));
    Ok(())
}
