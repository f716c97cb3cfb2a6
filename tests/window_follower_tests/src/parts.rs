//! Parts that nobody asked for, and the windows of a process.
use crate::desk::Desk;
use crate::display::{error, reply};
use owned_lists::Octets;
use std::alloc::{Alloc, Global};
use std::test::Fail;
use test_tables::expect_rows;
use window_follower::{Wish, windows_as_they_were_met};

fn part(alloc: Global, words: &str) -> Result<Octets, Fail> {
    let (word, number) = words.split_once(' ').ok_or("no number")?;
    let sequence = number.parse::<u16>()?;
    match word {
        "reply" => reply(alloc, sequence, 0, &[500]),
        "error" => error(alloc, sequence, 3),
        "short" => Ok(Octets::new(alloc)),
        _ => Err("no such part".into()),
    }
}

fn heard(alloc: Global, input: &str) -> Result<String, Fail> {
    let mut desk = Desk::new(alloc)?;
    let mut text = String::new(alloc);
    for step in input.split(" / ") {
        let part = part(alloc, step)?;
        desk.hear(&part, &mut text)?;
    }
    Ok(text)
}

/// The answers to the first three questions, an Error to the first, the second before the first, one to
/// nothing, and fewer than 32 bytes; nothing is taken behind any of these.
const PARTS: &str = "\
reply 1 / reply 2 / reply 3 => \n\
error 1 / reply 2 => \n\
reply 2 / reply 1 => Lost Stopped \n\
reply 400 / reply 1 => Lost Stopped \n\
reply 0 => Lost \n\
short 0 / reply 1 => Lost Stopped ";

#[test]
fn unasked_parts_end_it(rt: HostRuntime) -> Result<(), Fail> {
    expect_rows(&rt, PARTS, heard)
}

fn windows_of(alloc: Global, input: &str) -> Result<String, Fail> {
    let (process, world) = input.split_once(' ').ok_or("no facts")?;
    let mut desk = Desk::new(alloc)?;
    let mut text = String::new(alloc);
    desk.answer_all(world, &mut text)?;
    for window in desk
        .follower
        .windows_of(process.parse::<u32>()?)?
        .as_slice()
    {
        text.push_str(format!(in alloc; "{window} ")?.as_str())?;
    }
    Ok(text)
}

/// Windows of a process by its own word and by its leader's; a dialog of another process is of the program
/// that it is transient for.
const PROCESSES: &str = "\
3 n 9 114 5; n 5 114 5; n 9 115 20 21 22; n 20 113 3; n 21 113 4; n 22 103 30; n 30 113 3 => 20 22 \n\
3 n 9 114 5; n 5 114 5; n 9 115 20 21; n 20 113 3; n 21 113 4; n 21 104 20 => 20 21 \n\
4 n 9 114 5; n 5 114 5; n 9 115 20 21; n 20 113 3; n 21 113 4; n 21 104 20 => ";

#[test]
fn windows_are_of_processes(rt: HostRuntime) -> Result<(), Fail> {
    expect_rows(&rt, PROCESSES, windows_of)
}

/// As many wishes as the display may leave open, and more: the last that is sent is a mark, and the others
/// follow once it is answered.
#[test]
fn no_more_are_open_than_may_be(rt: HostRuntime) -> Result<(), Fail> {
    let alloc = rt.alloc();
    let mut desk = Desk::new(alloc)?;
    let mut text = String::new(alloc);
    for window in 0..70000 {
        desk.wish(Wish::Close { window })?;
    }
    let asked = desk.asked_count();
    if asked != 65535 {
        return Err(Fail::new(format_args!("{asked} are open")));
    }
    if desk.last_asked()?.as_str() != "GetInputFocus" {
        return Err("no mark is last".into());
    }
    desk.answer_all("", &mut text)?;
    desk.wish(Wish::Mark { number: 5 })?;
    desk.answer_all("", &mut text)?;
    if text.as_str() != "mark 5 " {
        return Err(Fail::new(format_args!("{text} was heard")));
    }
    Ok(())
}

/// Whether the program of a window runs here, by what its window says.
#[test]
fn machines_are_told_apart(rt: HostRuntime) -> Result<(), Fail> {
    windows_as_they_were_met();
    let alloc = rt.alloc();
    let mut desk = Desk::new(alloc)?;
    let mut text = String::new(alloc);
    desk.answer_all(
        "n 9 114 5; n 5 114 5; n 9 115 20 21 22; t 20 107 here; t 21 107 there",
        &mut text,
    )?;
    for window in 20..24 {
        let word = match desk.follower.get(window) {
            Some(row) => {
                if row.facts.is_local(b"here") {
                    "here "
                } else {
                    "there "
                }
            }
            None => "none ",
        };
        text.push_str(word)?;
    }
    if text.as_str() != "here there here none " {
        return Err(Fail::new(format_args!("{text}")));
    }
    Ok(())
}
