ghost use Rattle.std.specs.Prelude.{◌≡◌, ◌≤◌, length, IfOk};
ghost use Rattle.std.specs.List.{AllByRecursion};
ghost use Rattle.sm_world.specs.Events.{HasPieceSize};

use byte_relay::{RelayFault, serve_relay};
use ice_values::Endian;
use owned_lists::{NoMemory, Octets};
use sm_world::{Conn, Effect, Event, EventList, SteadyWorld};
use std::alloc::Global;
use std::fmt::Write;
use std::process::Abort;
use std::test::Fail;

/// A ByteOrder, least significant byte first, and a ConnectionSetup.
const SETUP: [u8; 64] = [
    0, 1, 0, 0, 0, 0, 0, 0, 0, 2, 1, 1, 6, 0, 0, 0, 0, 0, 0, 0, 0, 0, 0, 0, 3, 0, 77, 73, 84, 0, 0,
    0, 3, 0, 49, 46, 48, 0, 0, 0, 18, 0, 77, 73, 84, 45, 77, 65, 71, 73, 67, 45, 67, 79, 79, 75,
    73, 69, 45, 49, 1, 0, 0, 0,
];

/// A ByteOrder, least significant byte first, and an AuthenticationRequired.
const REQUIRED: [u8; 24] = [
    0, 1, 0, 0, 0, 0, 0, 0, 0, 3, 0, 0, 1, 0, 0, 0, 0, 0, 0, 0, 0, 0, 0, 0,
];

/// A ByteOrder.
const ORDER: [u8; 8] = [0, 1, 0, 0, 0, 0, 0, 0];

/// A ByteOrder and a Ping that is longer than a Ping.
const LONG_PING: [u8; 24] = [
    0, 1, 0, 0, 0, 0, 0, 0, 0, 9, 0, 0, 1, 0, 0, 0, 0, 0, 0, 0, 0, 0, 0, 0,
];

/// A ByteOrder, and once more.
const TWO_ORDERS: [u8; 16] = [0, 1, 0, 0, 0, 0, 0, 0, 0, 1, 0, 0, 0, 0, 0, 0];

/// A Ping.
const PING: [u8; 8] = [0, 9, 0, 0, 0, 0, 0, 0];

/// What both of a pair are sent as it opens, most significant byte first.
const OPENED: &str =
    "Sent(1, Octets { bytes: [0, 1, 1, 0, 0, 0, 0, 0] }) Sent(2, Octets { bytes: [0, 1, 1, 0, 0, 0, 0, 0] }) ";

/// ... and then the two messages, spelled anew.
const PASSED: &str =
    "Sent(1, Octets { bytes: [0, 1, 1, 0, 0, 0, 0, 0] }) Sent(2, Octets { bytes: [0, 1, 1, 0, 0, 0, 0, 0] }) Sent(2, Octets { bytes: [0, 2, 1, 1, 0, 0, 0, 6, 0, 0, 0, 0, 0, 0, 0, 0, 0, 3, 77, 73, 84, 0, 0, 0, 0, 3, 49, 46, 48, 0, 0, 0, 0, 18, 77, 73, 84, 45, 77, 65, 71, 73, 67, 45, 67, 79, 79, 75, 73, 69, 45, 49, 0, 1, 0, 0] }) Sent(1, Octets { bytes: [0, 3, 0, 0, 0, 0, 0, 1, 0, 0, 0, 0, 0, 0, 0, 0] }) ";

/// ... and then both are shut.
const BROKEN: &str =
    "Sent(1, Octets { bytes: [0, 1, 1, 0, 0, 0, 0, 0] }) Sent(2, Octets { bytes: [0, 1, 1, 0, 0, 0, 0, 0] }) Shut(1) Shut(2) ";

/// Ends the test where other things were done than these. What was heard doesn't count.
fn expect_done(
    rt: &(impl Abort + Alloc<A = Global>),
    effects: &[Effect],
    want: &str,
) -> Result<(), Fail> {
    let mut text = String::new(rt.alloc());
    for effect in effects {
        match effect {
            Effect::Heard(_) => {}
            _ => write!(text, "{effect:?} ")?,
        }
    }
    assert_eq!(rt; text.as_str(), want);
    Ok(())
}

fn add_piece(
    alloc: Global,
    events: &mut EventList,
    conn: Conn,
    bytes: &[u8],
) -> Result<(), NoMemory>
    requires some { 1 ≤ length bytes.now }
    requires fits { length bytes.now ≤ 65536 }
    requires before { AllByRecursion HasPieceSize events.old }
    ensures { IfOk result (λ _. AllByRecursion HasPieceSize events.new) }
{
    events.push(Event::Piece(conn, Octets::from_slice(alloc, bytes)?))
}

/// The two of a pair join, and each says something.
fn pair(alloc: Global, first: &[u8], second: &[u8]) -> Result<EventList, NoMemory>
    requires first_some { 1 ≤ length first.now }
    requires first_fits { length first.now ≤ 65536 }
    requires second_some { 1 ≤ length second.now }
    requires second_fits { length second.now ≤ 65536 }
    ensures { IfOk result (AllByRecursion HasPieceSize) }
{
    let mut events = EventList::new(alloc);
    events.push(Event::Joined(2))?;
    events.push(Event::Joined(1))?;
    add_piece(alloc, &mut events, 1, first)?;
    add_piece(alloc, &mut events, 2, second)?;
    Ok(events)
}

/// One of a pair joins and says something, and then one whose number has no other.
fn alone(alloc: Global) -> Result<EventList, NoMemory>
    ensures { IfOk result (AllByRecursion HasPieceSize) }
{
    let mut events = EventList::new(alloc);
    events.push(Event::Joined(5))?;
    add_piece(alloc, &mut events, 5, &ORDER)?;
    events.push(Event::Joined(4294967295))?;
    events.push(Event::Joined(0))?;
    Ok(events)
}

/// Relays to the end.
fn expect_relayed(
    rt: &(impl Abort + Alloc<A = Global>),
    events: EventList,
    want: &str,
) -> Result<(), Fail>
    requires { AllByRecursion HasPieceSize events }
{
    let alloc = rt.alloc();
    let mut world = SteadyWorld::new(alloc, events, Octets::new(alloc), Octets::new(alloc))?;
    let served = serve_relay(alloc, &mut world, Endian::Msb, 40);
    assert_eq!(rt; served, Ok(()));
    expect_done(rt, world.effects(), want)
}

/// Relays until the turns are spent.
fn expect_spent(rt: &(impl Abort + Alloc<A = Global>), want: &str) -> Result<(), Fail> {
    let alloc = rt.alloc();
    let events = pair(alloc, &SETUP, &REQUIRED)?;
    let mut world = SteadyWorld::new(alloc, events, Octets::new(alloc), Octets::new(alloc))?;
    let served = serve_relay(alloc, &mut world, Endian::Msb, 2);
    assert_eq!(rt; served, Err(RelayFault::Spent));
    expect_done(rt, world.effects(), want)
}

#[test]
fn messages_are_passed_on_in_the_other_order(rt: HostRuntime) -> Result<(), Fail> {
    expect_relayed(&rt, pair(rt.alloc(), &SETUP, &REQUIRED)?, PASSED)
}

#[test]
fn what_spells_no_message_breaks_the_pair(rt: HostRuntime) -> Result<(), Fail> {
    expect_relayed(&rt, pair(rt.alloc(), &LONG_PING, &ORDER)?, BROKEN)
}

#[test]
fn a_later_order_breaks_the_pair(rt: HostRuntime) -> Result<(), Fail> {
    expect_relayed(&rt, pair(rt.alloc(), &TWO_ORDERS, &ORDER)?, BROKEN)
}

#[test]
fn a_first_frame_that_is_no_order_breaks_the_pair(rt: HostRuntime) -> Result<(), Fail> {
    expect_relayed(&rt, pair(rt.alloc(), &PING, &ORDER)?, BROKEN)
}

#[test]
fn a_piece_before_the_pair_is_open_shuts_its_sender(rt: HostRuntime) -> Result<(), Fail> {
    expect_relayed(&rt, alone(rt.alloc())?, "Shut(5) Shut(0) ")
}

#[test]
fn the_turns_are_spent(rt: HostRuntime) -> Result<(), Fail> {
    expect_spent(&rt, OPENED)
}
