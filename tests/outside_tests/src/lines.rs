use control_lines::{
    effect_line, has_line, next_line, put_hex, read_bytes, read_conn, read_hex, read_number,
    read_order, read_script_line, split_once, started_line,
};
use owned_lists::{Command, NoMemory, Octets, OctetsList, PairList};
use sm_world::{Effect, Event};
use std::alloc::{Alloc, Global};
use std::process::Abort;
use std::test::Fail;
use test_tables::{expect_rows, text_of};

fn octets(alloc: Global, text: &str) -> Result<Octets, NoMemory> {
    Octets::from_slice(alloc, text.as_bytes())
}

fn shown(alloc: Global, text: &Octets) -> Result<String, Fail> {
    Ok(str::from_utf8(text.as_slice())?.to_string(alloc)?)
}

const ORDERS: &str = "\
checkpoint => Ok(Checkpoint)
shutdown => Ok(Shutdown)
cancel => Ok(Cancel)
status => Ok(Status)
drop 0 => Ok(DropConn(0))
drop 4294967295 => Ok(DropConn(4294967295))
forget x => Ok(Forget(Octets { bytes: [120] }))
forget !#~ => Ok(Forget(Octets { bytes: [33, 35, 126] }))
 => Err(BadLine)
Status => Err(BadLine)
status  => Err(BadLine)
 status => Err(BadLine)
drop => Err(BadLine)
drop  => Err(BadLine)
drop 4294967296 => Err(BadLine)
drop 00 => Err(BadLine)
drop +1 => Err(BadLine)
drop  1 => Err(BadLine)
forget  => Err(BadLine)
forget a b => Err(BadLine)
forget \u{7f} => Err(BadLine)";

fn order_shown(alloc: Global, line: &str) -> Result<String, Fail> {
    text_of(alloc, &read_order(alloc, line.as_bytes()))
}

#[test]
fn orders_of_lines(rt: HostRuntime) -> Result<(), Fail> {
    expect_rows(&rt, ORDERS, order_shown)
}

const EVENTS: &str = "\
join 1 => join 1
gone 4294967295 => gone 4294967295
piece 7 aBCd => piece 7 abcd
order drop 5 => order drop 5
order forget smd-1 => order forget smd-1
order checkpoint => order checkpoint
order shutdown => order shutdown
order cancel => order cancel
order status => order status
tick 0 => tick 0
tick 18446744073709551615 => tick 18446744073709551615
 => skipped
# => skipped
# join 1 => skipped
 # join 1 => BadLine
end => BadLine
join => BadLine
join 01 => BadLine
gone 4294967296 => BadLine
tick 18446744073709551616 => BadLine
piece 7  => BadLine
piece 7 abc => BadLine
piece 7  ab => BadLine
order order status => BadLine";

/// The line of an effect, if it has one.
fn line_shown(alloc: Global, effect: &Effect) -> Result<String, Fail> {
    if !has_line(effect) {
        return Ok("no line".to_string(alloc)?);
    }
    shown(alloc, &effect_line(alloc, effect)?)
}

/// What a script line gives, as a trace shows it.
fn event_shown(alloc: Global, line: &str) -> Result<String, Fail> {
    match read_script_line(alloc, line.as_bytes()) {
        Ok(Some(event)) => line_shown(alloc, &Effect::Heard(event)),
        Ok(None) => Ok("skipped".to_string(alloc)?),
        Err(refusal) => text_of(alloc, &refusal),
    }
}

#[test]
fn events_of_lines(rt: HostRuntime) -> Result<(), Fail> {
    expect_rows(&rt, EVENTS, event_shown)
}

#[test]
fn the_longest_piece(rt: HostRuntime) -> Result<(), Fail> {
    let mut line = String::new(rt.alloc());
    line.push_str("piece 1 ")?;
    for _ in 0..65_536 {
        line.push_str("5a")?;
    }
    let text = event_shown(rt.alloc(), line.as_str())?;
    assert_eq!(rt; text.as_str(), line.as_str());
    line.push_str("5a")?;
    let text = event_shown(rt.alloc(), line.as_str())?;
    assert_eq!(rt; text.as_str(), "BadLine");
    Ok(())
}

/// A command of two words, one of them empty, in this directory, with one name that is set.
fn command(alloc: Global, directory: &str) -> Result<Command, NoMemory> {
    let mut words = OctetsList::new(alloc);
    words.push(octets(alloc, "rm")?)?;
    words.push(octets(alloc, "")?)?;
    let mut environment = PairList::new(alloc);
    environment.push((octets(alloc, "A")?, octets(alloc, "")?))?;
    Ok(Command {
        words,
        directory: octets(alloc, directory)?,
        environment,
    })
}

/// An effect by its name.
fn effect(alloc: Global, name: &str) -> Result<Effect, NoMemory> {
    Ok(match name {
        "end" => Effect::Heard(Event::End),
        "shut" => Effect::Shut(4),
        "torn" => Effect::Torn(1, 2),
        "synced" => Effect::Synced,
        "unsynced" => Effect::SyncFailed,
        "wrote" => Effect::Wrote(1, octets(alloc, "x")?),
        "published" => Effect::Published(octets(alloc, "p")?, octets(alloc, "x")?),
        "started" => Effect::Started(command(alloc, "/tmp")?, true),
        "unstarted" => Effect::Started(command(alloc, "")?, false),
        _ => Effect::Sent(3, octets(alloc, "JK")?),
    })
}

const EFFECTS: &str = "\
end => end
shut => shut 4
torn => no line
synced => no line
unsynced => no line
wrote => no line
published => no line
started => started 726d - @ 2f746d70 + 41 -
unstarted => unstarted 726d - + 41 -
sent => sent 3 4a4b";

fn effect_shown(alloc: Global, name: &str) -> Result<String, Fail> {
    line_shown(alloc, &effect(alloc, name)?)
}

/// The line of a start by itself.
fn start_shown(alloc: Global, directory: &str) -> Result<String, Fail> {
    shown(
        alloc,
        &started_line(alloc, &command(alloc, directory)?, true)?,
    )
}

fn printed_line(alloc: Global, text: &str) -> Result<String, Fail> {
    line_shown(alloc, &Effect::Printed(octets(alloc, text)?))
}

/// The line of a printed text, without its newline and with it.
fn printed_shown(alloc: Global, text: &str) -> Result<String, Fail> {
    let ended = format!(in alloc; "{text}\n")?;
    let ended = printed_line(alloc, ended.as_str())?;
    Ok(format!(in alloc; "{}, {ended}", printed_line(alloc, text)?)?)
}

#[test]
fn lines_of_effects(rt: HostRuntime) -> Result<(), Fail> {
    expect_rows(&rt, EFFECTS, effect_shown)?;
    expect_rows(&rt, " => started 726d - + 41 -", start_shown)?;
    let row = "no shutdown => printed no shutdown, printed no shutdown";
    expect_rows(&rt, row, printed_shown)
}

fn number_shown(alloc: Global, field: &str) -> Result<String, Fail> {
    text_of(alloc, &read_number(alloc, field.as_bytes()))
}

fn conn_shown(alloc: Global, field: &str) -> Result<String, Fail> {
    text_of(alloc, &read_conn(alloc, field.as_bytes()))
}

fn hex_shown(alloc: Global, field: &str) -> Result<String, Fail> {
    text_of(alloc, &read_hex(alloc, field.as_bytes()))
}

fn bytes_shown(alloc: Global, fields: &str) -> Result<String, Fail> {
    text_of(alloc, &read_bytes(alloc, fields.as_bytes()))
}

const NUMBERS: &str = "\
4294967296 => Ok(Some(4294967296))
 => Ok(None)";

const CONNECTIONS: &str = "\
0 => Ok(Some(0))
4294967295 => Ok(Some(4294967295))
4294967296 => Ok(None)
01 => Ok(None)";

#[test]
fn fields_of_lines(rt: HostRuntime) -> Result<(), Fail> {
    expect_rows(&rt, NUMBERS, number_shown)?;
    expect_rows(&rt, CONNECTIONS, conn_shown)?;
    expect_rows(&rt, " => Ok(None)", hex_shown)?;
    let bytes = "9 4A => Ok(Some((9, Octets { bytes: [74] })))";
    expect_rows(&rt, bytes, bytes_shown)
}

/// The digits of a field behind an equals sign.
fn digits_shown(alloc: Global, field: &str) -> Result<String, Fail> {
    let mut text = octets(alloc, "=")?;
    put_hex(alloc, &mut text, field.as_bytes())?;
    shown(alloc, &text)
}

fn parts_shown(alloc: Global, line: &str) -> Result<String, Fail> {
    text_of(alloc, &split_once(line.as_bytes(), b' '))
}

/// The first line of a text that begins with an empty one, and the rest.
fn first_line_shown(alloc: Global, text: &str) -> Result<String, Fail> {
    let text = format!(in alloc; "\n{text}")?;
    if text.is_empty() {
        return Err("no line".into());
    }
    text_of(alloc, &next_line(text.as_bytes()))
}

#[test]
fn parts_of_lines(rt: HostRuntime) -> Result<(), Fail> {
    expect_rows(&rt, "Z => =5a\n => =-", digits_shown)?;
    let parts = "a b c => Some(([97], [98, 32, 99]))";
    expect_rows(&rt, parts, parts_shown)?;
    expect_rows(&rt, "x => ([], [120])", first_line_shown)
}
