//! Keepers by steps. A step is the pieces of one call, as names of frames with `+` between them; `=` and the windows that there
//! are, with commas between them; `ends`, `fails`; or so many milliseconds, behind `~` where the program doesn't answer.
//!
//! A window is its number and `m`, `a` or `f` for what it is, `o` where it is modal, `'` for another title, `*` for another touch,
//! `-` where it knows no pings, and `>` with the window that it is transient for.

use crate::frames::{frame, name_of};
use ice_cookie::Cookie;
use ice_values::{Array8, Array8List, Property, PropertyList, put_word};
use owned_lists::{NoMemory, Octets};
use program_keeper::{
    KeeperAct, KeeperActs, KeeperFault, ProgramKeeper, Window, WindowKind, WindowList,
    acts_are_due, closes_are_few, pieces_make_no_difference, rows_are_worked, saves_are_answered,
    starts_are_earned, talks_end_rightly,
};
use std::alloc::{Alloc, Global};
use std::test::Fail;
use test_tables::expect_rows;

/// The digit that a byte is.
fn digit(byte: u8) -> u32 {
    if byte.is_ascii_digit() {
        (byte - b'0') as u32
    } else {
        0
    }
}

/// The window that a word says.
pub fn window(word: &[u8]) -> Window {
    let mut window = Window {
        number: 0,
        kind: WindowKind::Main,
        modal: false,
        over: None,
        title: 0,
        touched: 0,
        pings: true,
    };
    let mut behind_arrow = false;
    for byte in word {
        match *byte {
            b'm' => window.kind = WindowKind::Main,
            b'a' => window.kind = WindowKind::Aux,
            b'f' => window.kind = WindowKind::Fixed,
            b'o' => window.modal = true,
            b'\'' => window.title += 1,
            b'*' => window.touched += 1,
            b'-' => window.pings = false,
            b'>' => behind_arrow = true,
            other => {
                if behind_arrow {
                    window.over = Some(digit(other));
                } else {
                    window.number = digit(other);
                }
            }
        }
    }
    window
}

/// The windows that a word says.
pub fn windows(alloc: Global, words: &str) -> Result<WindowList, NoMemory> {
    let mut windows = WindowList::new(alloc);
    for word in words.split(',') {
        if !word.is_empty() {
            windows.push(window(word.as_bytes()))?;
        }
    }
    Ok(windows)
}

/// The number that a word says.
pub fn number(word: &str) -> u32 {
    let mut number = 0;
    for byte in word.as_bytes() {
        number = number * 10 + digit(*byte);
    }
    number
}

/// A keeper of a program with the window 1, and what it sends at once.
fn keeper(alloc: Global) -> Result<(ProgramKeeper, Octets), NoMemory> {
    let mut words = Array8List::new(alloc);
    put_word(alloc, &mut words, b"editor")?;
    let mut set = PropertyList::new(alloc);
    set.push(Property::from_slices(alloc, b"Program", b"ARRAY8", words)?)?;
    let cookie = Cookie([0; 16]);
    let shown = windows(alloc, "1m")?;
    ProgramKeeper::new(alloc, cookie, Array8::new(alloc), set, shown)
}

fn put_act(alloc: Global, act: &KeeperAct, text: &mut String) -> Result<(), Fail> {
    match act {
        KeeperAct::Send(bytes) => match name_of(bytes.as_slice()) {
            Some(name) => text.push_str(name)?,
            None => text.push_str("other")?,
        },
        other => text.push_str(format!(in alloc; "{other:?}")?.as_str())?,
    }
    Ok(())
}

fn put_acts(
    alloc: Global,
    given: Result<KeeperActs, KeeperFault>,
    text: &mut String,
) -> Result<(), Fail> {
    match given {
        Ok(acts) => {
            for act in acts.as_slice() {
                text.push_str(" ")?;
                put_act(alloc, act, text)?;
            }
        }
        Err(fault) => text.push_str(format!(in alloc; " {fault:?}")?.as_str())?,
    }
    Ok(())
}

/// What the frames of one call bring.
fn hear(
    alloc: Global,
    keeper: &mut ProgramKeeper,
    names: &str,
) -> Result<Result<KeeperActs, KeeperFault>, Fail> {
    let mut piece = Octets::new(alloc);
    for name in names.split('+') {
        piece.append(frame(name))?;
    }
    Ok(keeper.hear(piece.as_slice()))
}

fn take(
    alloc: Global,
    keeper: &mut ProgramKeeper,
    step: &str,
) -> Result<Result<KeeperActs, KeeperFault>, Fail> {
    if let Some(shown) = step.strip_prefix("=") {
        return Ok(keeper.show(windows(alloc, shown)?));
    }
    if let Some(elapsed) = step.strip_prefix("~") {
        return Ok(keeper.tick(number(elapsed), false));
    }
    match step {
        "ends" => Ok(keeper.end()),
        "fails" => Ok(keeper.fail_start()),
        _ => {
            if step.as_bytes()[0].is_ascii_digit() {
                Ok(keeper.tick(number(step), true))
            } else {
                hear(alloc, keeper, step)
            }
        }
    }
}

/// All that a keeper does in these steps behind its registration, each behind a comma.
fn steps_shown(alloc: Global, steps: &str) -> Result<String, Fail> {
    let (mut keeper, first) = keeper(alloc)?;
    let mut text = String::new(alloc);
    if first.as_slice() != frame("order") {
        text.push_str("no order")?;
    }
    let begun = hear(alloc, &mut keeper, "order+connected+opened+id")?;
    if begun.is_err() {
        text.push_str("not begun")?;
    }
    drop(begun);
    for step in steps.split(' ') {
        text.push_str(",")?;
        let given = take(alloc, &mut keeper, step)?;
        put_acts(alloc, given, &mut text)?;
    }
    Ok(text)
}

/// Each place and each event: in the session, as it saved, as it waits for the token, with it, as it agreed or refused, and as it
/// is told to die.
const CELLS: &str = "\
save complete => , sets saved,
talk => , sets saved
forced die ends => , sets saved, Term, closes Drop
logout => , sets asks
die ends 9000 => , Term, closes Drop,
ends save => , closes Drop,
= 4999 1 => ,,, closes Drop
= 4999 =1f 5000 => ,,,,
save cancelled save => , sets saved,, sets saved
save ends complete => , sets saved,, closes Drop
save ends die => , sets saved,, closes Drop
logout cancelled 9000 => , sets asks, failed,
logout ends cancelled => , sets asks,, failed closes Drop
logout ends interact => , sets asks,, agrees saved
logout interact => , sets asks, Close(1)
logout interact cancelled = 5000 => , sets asks, Close(1), failed,, closes Drop
logout interact = die 4999 1 ends => , sets asks, Close(1), agrees saved,,, Term, closes Drop
logout interact = ends die => , sets asks, Close(1), agrees saved,, closes Drop
logout interact ends die => , sets asks, Close(1), agrees saved, closes Drop
logout interact = cancelled ends =1m logout => , sets asks, Close(1), agrees saved, Start,,, sets asks
logout interact = cancelled fails => , sets asks, Close(1), agrees saved, Start, closes Drop
logout interact = cancelled 29999 1 => , sets asks, Close(1), agrees saved, Start,, closes Drop
logout interact = cancelled logout interact 30000 => , sets asks, Close(1), agrees saved, Start, sets asks,, agrees saved
logout interact = cancelled logout interact =2m => , sets asks, Close(1), agrees saved, Start, sets asks,, Close(2)
= logout interact cancelled => ,, sets asks, agrees saved,
= logout interact ends cancelled => ,, sets asks, agrees saved,, closes Drop
logout interact =1m* 10000 cancelled => , sets asks, Close(1),, Ping(1) refuses saved,
logout interact =1m* 10000 die => , sets asks, Close(1),, Ping(1) refuses saved, Term
fatal ends => , Drop,
unknown save => , Drop,
oversize die => , Drop,";

#[test]
fn each_cell_of_the_table_is_done(rt: HostRuntime) -> Result<(), Fail> {
    pieces_make_no_difference();
    acts_are_due();
    talks_end_rightly();
    closes_are_few();
    starts_are_earned();
    saves_are_answered();
    rows_are_worked();
    expect_rows(&rt, CELLS, steps_shown)
}

/// The talk: windows one by one, dialogs, titles, touches, and nothing at all.
const TALKS: &str = "\
=2m,1m logout interact =2m = => ,, sets asks, Close(1), Close(2), agrees saved
=1m,2m,3a>1 logout interact =1m,3a>1 => ,, sets asks, Close(2), Close(1)
=1m,3f logout interact =3f => ,, sets asks, Close(1), agrees saved
logout interact =1m,2ao 9000 =1m 3999 1 => , sets asks, Close(1), Show(2),,, Ping(1), Ping(1) refuses saved
logout interact =1m,2a =1m ~9000 4000 => , sets asks, Close(1), Show(2),, Ping(1), Ping(1) refuses saved
=1m,2a logout interact =2a => ,, sets asks, Close(1), agrees saved
=1m,2ao logout interact =1m => ,, sets asks, Show(2), Close(1)
logout interact =1m,2m =2m 9000 = => , sets asks, Close(1), Show(2),,, agrees saved
logout interact =1m' 4000 4000 4000 4000 => , sets asks, Close(1),, Ping(1) Close(1), Ping(1) Close(1), Ping(1) Close(1), Ping(1) refuses saved
logout interact =1m* 9999 =1m** 9999 1 => , sets asks, Close(1),, Ping(1),, Ping(1), refuses saved
logout interact 4999 1 99000 = => , sets asks, Close(1), Ping(1), Ping(1) Show(1), Ping(1), agrees saved
=1m- logout interact 500 499 1 => ,, sets asks, Close(1),,,
logout interact 500 499 1 => , sets asks, Close(1),,, Ping(1)";

#[test]
fn a_talk_goes_from_window_to_window(rt: HostRuntime) -> Result<(), Fail> {
    expect_rows(&rt, TALKS, steps_shown)
}
