use start_waves::{Ranked, RankedList, Waves};
use std::alloc::{Alloc, Global};
use std::process::Abort;
use std::test::Fail;
use test_tables::expect_rows;
use written_books::command;

/// The programs of a login: each has its word, `=` and its priority.
fn ranks(alloc: Global, text: &str) -> Result<RankedList, Fail> {
    let mut ranks = RankedList::new(alloc);
    for row in text.split(' ') {
        let (word, priority) = row.split_once('=').ok_or("no priority")?;
        ranks.push(Ranked {
            command: command(alloc, word)?,
            priority: priority.parse::<u8>()?,
        })?;
    }
    Ok(ranks)
}

/// Adds the words of the wave that is due.
fn put_wave(waves: &mut Waves, text: &mut String) -> Result<(), Fail> {
    for command in waves.go_on()?.as_slice() {
        for word in command.words.as_slice() {
            text.push_str(str::from_utf8(word.as_slice())?)?;
        }
    }
    text.push('|')?;
    Ok(())
}

/// Does a step: `on` goes on, `one` has one of the wave joined, a number is milliseconds that pass, and
/// `+` hands over the program of the word behind it.
fn put_step(alloc: Global, waves: &mut Waves, step: &str, text: &mut String) -> Result<(), Fail> {
    match step {
        "on" => put_wave(waves, text)?,
        "one" => waves.settle(),
        _ => match step.strip_prefix('+') {
            Some(word) => {
                let turn = waves.take(&command(alloc, word)?)?;
                let shown = format!(in alloc; "{turn:?} ")?;
                text.push_str(shown.as_str())?;
            }
            None => waves.pass(step.parse::<u64>()?),
        },
    }
    Ok(())
}

/// What these steps start, with a bar behind each time that it went on, and whether some are left.
fn started_by(alloc: Global, input: &str) -> Result<String, Fail> {
    let (programs, steps) = input.split_once(" / ").ok_or("no steps")?;
    let mut waves = Waves::new(alloc, ranks(alloc, programs)?);
    let mut text = String::new(alloc);
    for step in steps.split(' ') {
        put_step(alloc, &mut waves, step, &mut text)?;
    }
    text.push_str(if waves.are_left() { " left" } else { " none" })?;
    Ok(text)
}

const ROWS: &str = "\
a=50 b=50 / +a +b on => First First | none
a=50 w=20 / +a +w on one on one on => Later First |a|| none
a=50 w=20 / +a +w on 1999 on 1 on => Later First ||a| none
a=50 b=50 w=20 v=20 / +b +w +a +v one on one on => Later First Later First |ba| none
a=50 p=25 w=20 / +a +p +w one on on one on => Later Later First p||a| none
a=50 p=25 w=20 / +a +p +w one on 2000 on => Later Later First p|a| none
a=50 p=25 w=20 / +a +p +w 2000 on on => Later Later First p|| left
a=50 w=20 / +x +a +w one on => Apart Later First a| none
a=50 w=20 / on +a +w => |Apart Apart  none
a=50 w=20 / +a on => Later a| none
a=50 a=20 / +a +a on => First First | none
a=0 b=255 / +b +a one one on => Later First b| none
a=255 b=255 / +b +a on => First First | none";

#[test]
fn each_wave_waits_for_the_one_before(rt: HostRuntime) -> Result<(), Fail> {
    expect_rows(&rt, ROWS, started_by)
}

#[test]
fn nobody_waits_without_programs(rt: HostRuntime) -> Result<(), Fail> {
    let alloc = rt.alloc();
    let mut waves = Waves::new(alloc, RankedList::new(alloc));
    let turn = waves.take(&command(alloc, "a")?)?;
    assert_eq!(rt; turn, start_waves::Turn::Apart);
    assert_eq!(rt; waves.are_left(), false);
    Ok(())
}
