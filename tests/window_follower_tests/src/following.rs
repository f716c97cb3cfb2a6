//! Windows that come, change and leave. A row has steps with ` / ` between them: `w FACTS` what the display holds from here on,
//! `e CODE NUMBERS` an event, and then what is asked is answered. What is shown last is which windows there are, each with its
//! kind, its process and its title.
use crate::desk::Desk;
use std::alloc::Global;
use std::test::Fail;
use test_tables::expect_rows;
use window_follower::{Followed, Mode, Wish, windows_are_followed};

fn mode_word(mode: Mode) -> &'static str {
    match mode {
        Mode::Unknown => "unknown",
        Mode::Listed { .. } => "listed",
        Mode::Stated => "stated",
        Mode::Bare => "bare",
    }
}

fn put_window(desk: &Desk, row: &Followed, text: &mut String) -> Result<(), Fail> {
    let window = row.window;
    let kind = desk.follower.kind(window);
    let process = row.facts.process();
    text.push_str(format!(in desk.alloc; " {window}")?.as_str())?;
    if let Some(kind) = kind {
        text.push_str(format!(in desk.alloc; ":{kind:?}")?.as_str())?;
    }
    if let Some(process) = process {
        text.push_str(format!(in desk.alloc; ":{process}")?.as_str())?;
    }
    if let Some(title) = row.facts.title() {
        text.push(':')?;
        text.push_str(str::from_utf8(title)?)?;
    }
    if row.facts.modal {
        text.push_str(":modal")?;
    }
    if desk.follower.has_session(row.facts.leader) {
        text.push_str(":session")?;
    }
    if let Some(time) = desk.follower.user_time(window) {
        text.push_str(format!(in desk.alloc; ":at{time}")?.as_str())?;
    }
    Ok(())
}

fn put_windows(desk: &Desk, text: &mut String) -> Result<(), Fail> {
    text.push_str(mode_word(desk.follower.mode()))?;
    for row in desk.follower.windows() {
        if row.listed {
            put_window(desk, row, text)?;
        }
    }
    Ok(())
}

fn event_step(desk: &mut Desk, words: &str, text: &mut String) -> Result<(), Fail> {
    let mut numbers = Vec::new(desk.alloc);
    for word in words.split(' ') {
        numbers.push(word.parse::<u32>()?)?;
    }
    desk.event(numbers[0] as u8, &numbers[1..], text)
}

fn followed(alloc: Global, input: &str) -> Result<String, Fail> {
    let mut desk = Desk::new(alloc)?;
    let mut world = "";
    let mut text = String::new(alloc);
    for step in input.split(" / ") {
        if let Some(facts) = step.strip_prefix("w ") {
            world = facts;
        } else if let Some(words) = step.strip_prefix("e ") {
            event_step(&mut desk, words, &mut text)?;
        } else {
            return Err("no such step".into());
        }
        desk.answer_all(world, &mut text)?;
    }
    put_windows(&desk, &mut text)?;
    Ok(text)
}

/// A window manager with a list: a window, a dialog of it, a panel and a menu; the process by X-Resource and
/// by its own word; a leader with an ID of a session; a user time in a window of its own. A list without
/// the window, an empty one, and its manager's end take nothing out. A window that is destroyed, that is
/// missing, that is unmapped and withdrawn, and one that is iconified. A change of a title, and one that a
/// program sent. No window manager: shown children alone, and one that is unmapped. One without a list:
/// windows with a WM_STATE, at three levels. A window manager that is gone names nobody.
const ROWS: &str = "\
w n 9 114 5; n 5 114 5; n 9 115 20; n 20 102 130 131; t 20 106 Notes; n 20 113 3; n 20 101 1 0 => listed 20:Main:3:Notes
w x; i 20 77; n 9 114 5; n 5 114 5; n 9 115 20; n 20 102 130; n 20 113 3 => listed 20:Main:77
w n 9 114 5; n 5 114 5; n 9 115 20 21 22 23; n 20 102 130; n 21 104 20; n 21 110 132; n 22 109 118; n 23 109 500 123 => listed 20:Main 21:Auxiliary:modal 22:Fixed 23:Passing
w n 9 114 5; n 5 114 5; n 9 115 20 21; n 21 104 20; n 21 109 116; n 20 109 116 => listed 20:Fixed 21:Auxiliary
w n 9 114 5; n 5 114 5; n 9 115 20; n 20 103 30; t 30 108 10abc; n 20 112 31; n 31 111 4000 => listed 20:Fixed:session:at4000
w n 9 114 5; n 5 114 5; n 9 115 20 21 / w n 9 114 5; n 5 114 5; n 9 115 21 / e 28 9 115 => listed 20:Fixed 21:Fixed
w n 9 114 5; n 5 114 5; n 9 115 20 21 / w n 9 114 5; n 5 114 5; n 9 115 / e 28 9 115 => listed 20:Fixed 21:Fixed
w n 9 114 5; n 5 114 5; n 9 115 20 / w n 9 114 5; a 9 1 2 0 0; c 9 / e 17 5 5 => bare 20:Fixed
w n 9 114 5; n 5 114 5; n 9 115 20 21 / e 17 9 20 => listed 21:Fixed
w n 9 114 5; n 5 114 5; n 9 115 20 21; n 20 101 1 0 / e 18 20 20 => listed 20:Fixed 21:Fixed
w n 9 114 5; n 5 114 5; n 9 115 20 21; n 20 101 1 0 / e 18 20 20 / w n 9 114 5; n 20 101 0 0 / e 28 20 101 => listed 21:Fixed
w n 9 114 5; n 5 114 5; n 9 115 20 21; n 20 101 3 0 / e 18 20 20 => listed 20:Fixed 21:Fixed
w n 9 114 5; n 5 114 5; n 9 115 20; n 20 101 3 0 / w n 9 114 5; n 20 101 0 0 / e 28 20 101 => listed
w n 9 114 5; n 5 114 5; n 9 115 20; n 20 101 / e 28 20 101 => listed 20:Fixed
w n 9 114 5; n 5 114 5; n 9 115 20; t 20 106 One / w n 9 114 5; t 20 106 Two / e 28 20 106 => listed 20:Fixed:Two
w n 9 114 5; n 5 114 5; n 9 115 20; t 20 106 One / w n 9 114 5; t 20 106 Two / e 156 20 106 => listed 20:Fixed:One
w n 9 114 5; n 5 114 5; n 9 115 20 / e 145 20 20 => listed 20:Fixed
w n 9 114 5; n 5 114 5; n 9 115 20 / e 161 9 102 131 7 20 => pong 20 7 listed 20:Fixed
w n 9 114 5; n 5 114 5; n 9 115 20 / e 33 9 102 131 7 20 => listed 20:Fixed
w a 9 1 2 0 0; c 9 20 21 22 23; a 20 1 2 0 0; a 21 1 0 0 0; a 22 1 2 1 0; a 23 2 2 0 0 => bare 20:Fixed
w a 9 1 2 0 0; c 9 20; a 20 1 2 0 0 / w a 9 1 2 0 0; c 9 20; a 20 1 0 0 0 / e 18 9 20 => bare
w a 9 1 2 0 1048576; c 9 20 21 22; n 20 101 1 0; n 21 101 0 0; c 21 26; n 26 101 1 0; c 22 23; c 23 24 25; n 24 101 3 0; c 25 27; n 27 101 1 0 => stated 20:Fixed 24:Fixed
w n 9 114 5; a 9 1 2 0 0; c 9 => bare
w n 9 114 9; a 9 1 2 0 0; c 9 => bare
w a 9 1 2 0 0; c 9 / w a 9 1 2 0 0; c 9 20; a 20 1 2 0 0 / e 19 9 20 0 => bare 20:Fixed";

#[test]
fn windows_come_and_leave(rt: HostRuntime) -> Result<(), Fail> {
    expect_rows(&rt, ROWS, followed)
}

fn wish_of(words: &str) -> Result<Wish, Fail> {
    let (word, number) = words.split_once(' ').ok_or("no number")?;
    let number = number.parse::<u32>()?;
    Ok(match word {
        "close" => Wish::Close { window: number },
        "show" => Wish::Show { window: number },
        "ping" => Wish::Ping {
            window: number,
            stamp: 7,
        },
        "mark" => Wish::Mark { number },
        _ => return Err("no such wish".into()),
    })
}

fn wished(alloc: Global, input: &str) -> Result<String, Fail> {
    let mut desk = Desk::new(alloc)?;
    let mut text = String::new(alloc);
    desk.answer_all("", &mut text)?;
    desk.wish(wish_of(input)?)?;
    text.push_str(desk.last_asked()?.as_str())?;
    text.push(' ')?;
    desk.answer_all("", &mut text)?;
    Ok(text)
}

/// A window is asked to close, shown and pinged, and a mark comes.
const WISHES: &str = "\
close 20 => SendEvent { window: 20, events: 0, message: ClientMessage { window: 20, kind: 102, first: 130, second: 0, third: 0 } } \n\
show 20 => SendEvent { window: 9, events: 1572864, message: ClientMessage { window: 20, kind: 133, first: 2, second: 0, third: 0 } } \n\
ping 20 => SendEvent { window: 20, events: 0, message: ClientMessage { window: 20, kind: 102, first: 131, second: 7, third: 20 } } \n\
mark 4 => GetInputFocus mark 4 ";

#[test]
fn wishes_are_sent(rt: HostRuntime) -> Result<(), Fail> {
    windows_are_followed();
    expect_rows(&rt, WISHES, wished)
}
