//! Schedules by chance, and one by hand.

use crate::company::Company;
use crate::dice::Dice;
use client_machine::{ClientPhase, Request};
use ice_values::{Array8List, Dialog, PropertyList, SaveKind, SaveStyle};
use round_agreement::Wanted;
use sm_world::{Conn, Order};
use std::alloc::{Alloc, Global};
use std::process::Abort;
use std::rt::HostRuntime;
use std::test::Fail;

/// The ID of the first new client.
const FIRST_ID: &[u8] = b"smd-00000001-00000001";

fn style(dice: &mut Dice) -> SaveStyle {
    match dice.roll(3) {
        0 => SaveStyle::Nothing,
        1 => SaveStyle::Errors,
        _ => SaveStyle::Any,
    }
}

/// A save of all, or of the client alone.
fn wanted(dice: &mut Dice, conn: Conn) -> Wanted {
    let only = if dice.flip() { Some(conn) } else { None };
    Wanted {
        only,
        from: None,
        kind: SaveKind::Both,
        shutdown: only.is_none() && dice.roll(3) == 0,
        style: style(dice),
        fast: dice.flip(),
    }
}

/// Something that a client may want to say.
fn request(alloc: Global, dice: &mut Dice, conn: Conn) -> Request {
    match dice.roll(100) {
        0..=39 => Request::Done(dice.flip()),
        40..=54 => Request::Interact(if dice.flip() {
            Dialog::Error
        } else {
            Dialog::Normal
        }),
        55..=67 => Request::InteractDone(dice.flip()),
        68..=82 => Request::PhaseTwo,
        83..=92 => Request::Save(wanted(dice, conn)),
        93..=95 => Request::Get,
        96..=97 => Request::Set(PropertyList::new(alloc)),
        98 => Request::Delete(Array8List::new(alloc)),
        _ => Request::Close(Array8List::new(alloc)),
    }
}

fn order(dice: &mut Dice, conn: Conn) -> Order {
    match dice.roll(8) {
        0..=2 => Order::Checkpoint,
        3..=4 => Order::Shutdown,
        5..=6 => Order::Cancel,
        _ => Order::DropConn(conn),
    }
}

/// The connection of some seat, where there is one.
fn some_conn(company: &Company, dice: &mut Dice) -> Option<Conn> {
    let index = dice.roll(company.seats.len() as u64);
    company.seats.get(index as usize).map(|seat| seat.conn)
}

fn ask(
    rt: &(impl Abort + Alloc<A = Global>),
    company: &mut Company,
    conn: Conn,
    request: Request,
) -> Result<(), Fail> {
    match company.seats.iter_mut().find(|seat| seat.conn == conn) {
        Some(seat) => seat.ask(rt, request),
        None => Ok(()),
    }
}

fn take(
    rt: &(impl Abort + Alloc<A = Global>),
    company: &mut Company,
    conn: Conn,
) -> Result<(), Fail> {
    match company.seats.iter_mut().find(|seat| seat.conn == conn) {
        Some(seat) => seat.take(rt),
        None => Ok(()),
    }
}

/// A client joins on a connection that nobody has.
fn join(
    rt: &(impl Abort + Alloc<A = Global>),
    company: &mut Company,
    dice: &mut Dice,
) -> Result<(), Fail> {
    let conn = 1 + dice.roll(8) as Conn;
    if company.manager.is_live(conn) {
        return Ok(());
    }
    let previous = if dice.roll(4) == 0 {
        FIRST_ID
    } else {
        b"".as_slice()
    };
    company.join(rt, conn, previous)
}

/// One step that has to do with this client, or an order, or the time.
fn step(
    rt: &(impl Abort + Alloc<A = Global>),
    company: &mut Company,
    dice: &mut Dice,
    conn: Conn,
) -> Result<(), Fail> {
    match dice.roll(200) {
        0..=61 => {
            let wish = request(rt.alloc(), dice, conn);
            ask(rt, company, conn, wish)
        }
        62..=121 => company.hear(rt, conn),
        122..=181 => take(rt, company, conn),
        182..=192 => company.order(rt, order(dice, conn)),
        193..=197 => company.wait(rt, dice.roll(600)),
        _ => company.leave(rt, conn),
    }
}

/// A schedule of at most eight clients at once and 200 steps, every second one with a patience. Up to six
/// join at the start, and others at any point.
fn play(rt: &(impl Abort + Alloc<A = Global>), seed: u64) -> Result<(), Fail> {
    let mut dice = Dice::new(seed);
    let patience = if dice.flip() { 1000 } else { 0 };
    let mut company = Company::new(rt, patience)?;
    for _client in 0..2 + dice.roll(5) {
        join(rt, &mut company, &mut dice)?;
    }
    for _turn in 0..200u32 {
        if dice.roll(50) == 0 {
            join(rt, &mut company, &mut dice)?;
        }
        if let Some(conn) = some_conn(&company, &mut dice) {
            step(rt, &mut company, &mut dice, conn)?;
        }
        company.check(rt);
    }
    Ok(())
}

/// Ten thousand schedules: no client takes what it doesn't expect, also once its connection is shut or
/// broken, nobody is sent BadState, no save is answered twice, and both ends agree wherever nothing is
/// under way.
#[test]
fn both_ends_agree_by_chance(rt: HostRuntime) -> Result<(), Fail> {
    for seed in 1..=10_000u64 {
        play(&rt, seed)?;
    }
    Ok(())
}

/// All is taken that is under way between the manager and three clients.
fn drain(rt: &(impl Abort + Alloc<A = Global>), company: &mut Company) -> Result<(), Fail> {
    for _turn in 0..4u32 {
        for conn in 1..=3u32 {
            company.hear(rt, conn)?;
            take(rt, company, conn)?;
        }
    }
    Ok(())
}

/// Each of three clients that saves says that it has saved.
fn save(rt: &(impl Abort + Alloc<A = Global>), company: &mut Company) -> Result<(), Fail> {
    for conn in 1..=3u32 {
        ask(rt, company, conn, Request::Done(true))?;
    }
    Ok(())
}

/// Three clients that are registered and have saved once.
fn three(rt: &(impl Abort + Alloc<A = Global>)) -> Result<Company, Fail> {
    let mut company = Company::new(rt, 0)?;
    for conn in 1..=3u32 {
        company.join(rt, conn, b"")?;
    }
    for _round in 0..4u32 {
        drain(rt, &mut company)?;
        save(rt, &mut company)?;
    }
    Ok(company)
}

/// Each client is in this phase.
fn all_are(rt: &(impl Abort + Alloc<A = Global>), company: &Company, phase: ClientPhase) {
    for seat in company.seats.iter() {
        assert!(rt; seat.client.phase() == phase);
    }
    company.check(rt);
}

/// A logout, of which the first client wants it cancelled and the second has answered; the third
/// answers before it hears of that. Then a round begins, once the first has answered too.
fn cross(rt: &(impl Abort + Alloc<A = Global>), company: &mut Company) -> Result<(), Fail> {
    company.order(rt, Order::Shutdown)?;
    drain(rt, company)?;
    ask(rt, company, 1, Request::Interact(Dialog::Normal))?;
    ask(rt, company, 2, Request::Done(true))?;
    drain(rt, company)?;
    ask(rt, company, 1, Request::InteractDone(true))?;
    ask(rt, company, 3, Request::Done(true))?;
    company.hear(rt, 1)?;
    company.order(rt, Order::Checkpoint)?;
    company.hear(rt, 3)?;
    drain(rt, company)
}

#[test]
fn a_cancellation_crosses_an_answer(rt: HostRuntime) -> Result<(), Fail> {
    let mut company = three(&rt)?;
    all_are(&rt, &company, ClientPhase::Idle);
    cross(&rt, &mut company)?;
    all_are(&rt, &company, ClientPhase::Saving);
    save(&rt, &mut company)?;
    drain(&rt, &mut company)?;
    all_are(&rt, &company, ClientPhase::Idle);
    Ok(())
}
