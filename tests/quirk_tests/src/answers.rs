use crate::table::bytes_of;
use client_quirks::{Answerer, PieceList, StreamPiece};
use owned_lists::Octets;
use std::alloc::{Alloc, Global};
use std::process::Abort;
use std::test::Fail;
use test_tables::expect_rows;

/// The frames that rows name: those of a client under the opcode 1, and of a manager under the opcode 2.
const FRAMES: &[(&str, &str)] = &[
    ("order", "0001000000000000"),
    (
        "setup",
        "00070100040000000100000000000000040058534d50000000000000000000000100000000000000",
    ),
    ("opened", "00080002010000000000000000000000"),
    ("registered", "02020000010000000100000061000000"),
    ("save", "02030000010000000100000000000000"),
    ("logout", "02030000010000000201020000000000"),
    ("errors", "02030000010000000201010000000000"),
    ("mute", "02030000010000000201000000000000"),
    ("interact", "0206000000000000"),
    ("die", "0209000000000000"),
    ("cancelled", "020a000000000000"),
    ("phase2", "0211000000000000"),
    ("complete", "0212000000000000"),
    ("ping", "0009000000000000"),
    ("reply", "000a000000000000"),
    ("error?", "0105000000000000"),
    ("ask", "0105010000000000"),
    ("talked", "0107000000000000"),
    ("cancels", "0107010000000000"),
    ("failed", "0108000000000000"),
    ("done", "0108010000000000"),
    ("second", "0110000000000000"),
    ("closed", "010b0000010000000000000000000000"),
    ("asks", "01040000010000000100000000000000"),
    ("properties", "010e000000000000"),
    (
        "given",
        "020f00000900000001000000000000000e00000052657374617274436f6d6d616e640000000000000c0000004c4953546f66415252415938010000000000000005000000787465726d00000000000000",
    ),
    ("none", "020f0000010000000000000000000000"),
    (
        "never",
        "020f00001000000002000000000000000e00000052657374617274436f6d6d616e640000000000000c0000004c4953546f66415252415938010000000000000005000000787465726d0000000000000010000000526573746172745374796c6548696e74000000000500000043415244380000000000000001000000000000000100000003000000",
    ),
    (
        "immediately",
        "020f00001000000002000000000000000e00000052657374617274436f6d6d616e640000000000000c0000004c4953546f66415252415938010000000000000005000000787465726d0000000000000010000000526573746172745374796c6548696e74000000000500000043415244380000000000000001000000000000000100000002000000",
    ),
];

/// How a client opens its session.
pub const OPENING: &str = "c:order s:order c:setup s:opened s:registered";

fn frame_of(name: &str) -> &str {
    for (known, digits) in FRAMES {
        if *known == name {
            return digits;
        }
    }
    name
}

/// The bytes of frames whose names are joined by `+`; what names no frame is hex digits.
pub fn read_frames(alloc: Global, names: &str) -> Result<Vec<u8>, Fail> {
    let mut bytes = Vec::new(alloc);
    for name in names.split('+') {
        for byte in &bytes_of(alloc, frame_of(name))? {
            bytes.push(*byte)?;
        }
    }
    Ok(bytes)
}

/// Which frame stands at the front of these hex digits, and how long it is.
fn front_of(digits: &str) -> Option<(&str, usize)> {
    for (known, frame) in FRAMES {
        if digits.starts_with(*frame) {
            return Some((*known, frame.len()));
        }
    }
    None
}

/// Adds the names of frames that lie one behind the other, or a dash where there are none.
pub fn put_frames(alloc: Global, bytes: &[u8], text: &mut String) -> Result<(), Fail> {
    if bytes.is_empty() {
        text.push_str("-")?;
        return Ok(());
    }
    let all = hex::encode(alloc, bytes)?;
    let mut rest = all.as_str();
    while let Some((name, len)) = front_of(rest) {
        text.push_str(name)?;
        rest = rest.split_at(len).1;
        if !rest.is_empty() {
            text.push_str("+")?;
        }
    }
    text.push_str(rest)?;
    Ok(())
}

pub fn joined(alloc: Global, pieces: &PieceList) -> Result<Vec<u8>, Fail> {
    let mut bytes = Vec::new(alloc);
    for piece in pieces.as_slice() {
        for byte in piece.as_slice() {
            bytes.push(*byte)?;
        }
    }
    Ok(bytes)
}

/// A piece of the client's: what the manager hears of it, and behind `>` what goes out to the client.
fn put_heard(
    alloc: Global,
    answerer: &mut Answerer,
    names: &str,
    text: &mut String,
) -> Result<(), Fail> {
    let bytes = read_frames(alloc, names)?;
    let passes = answerer.lets_pass(bytes.as_slice());
    let answering = answerer.hear(StreamPiece::new(Octets::from_vec(bytes)))?;
    let pieces = joined(alloc, &answering.pieces)?;
    put_frames(alloc, pieces.as_slice(), text)?;
    if answering.going.len() > 0 {
        text.push_str(">")?;
        put_frames(alloc, answering.going.as_slice(), text)?;
    }
    if passes {
        text.push_str("'")?;
    }
    Ok(())
}

/// What the manager sends: what goes out to the client, and behind `<` what the manager hears.
fn put_told(
    alloc: Global,
    answerer: &mut Answerer,
    names: &str,
    text: &mut String,
) -> Result<(), Fail> {
    let bytes = read_frames(alloc, names)?;
    let passes = answerer.sends_on(bytes.as_slice());
    let answering = answerer.tell(bytes.as_slice())?;
    put_frames(alloc, answering.going.as_slice(), text)?;
    let pieces = joined(alloc, &answering.pieces)?;
    if !pieces.is_empty() {
        text.push_str("<")?;
        put_frames(alloc, pieces.as_slice(), text)?;
    }
    if passes {
        text.push_str("'")?;
    }
    Ok(())
}

/// Takes a step: `c` says something for the client, `s` for the manager, `t` lets milliseconds pass, and any
/// other word ends the client's stream.
pub fn put_step(
    alloc: Global,
    answerer: &mut Answerer,
    step: &str,
    text: &mut String,
) -> Result<(), Fail> {
    match step.split_once(':') {
        Some(("c", names)) => put_heard(alloc, answerer, names, text),
        Some(("s", names)) => put_told(alloc, answerer, names, text),
        Some((_, digits)) => {
            let Ok(milliseconds) = digits.parse::<u64>() else {
                return Err("no time".into());
            };
            let pieces = joined(alloc, &answerer.pass(milliseconds)?)?;
            put_frames(alloc, pieces.as_slice(), text)
        }
        None => {
            answerer.end();
            Ok(())
        }
    }
}

/// What the steps of a session bring, behind its opening.
fn answers_shown(alloc: Global, input: &str) -> Result<String, Fail> {
    let mut answerer = Answerer::new(alloc);
    let mut opening = String::new(alloc);
    for step in OPENING.split(' ') {
        put_step(alloc, &mut answerer, step, &mut opening)?;
    }
    let mut text = String::new(alloc);
    for step in input.split(' ') {
        if !text.is_empty() {
            text.push_str(" ")?;
        }
        put_step(alloc, &mut answerer, step, &mut text)?;
    }
    Ok(text)
}

/// A client that is never told that a logout is called off: each frame goes as it came. A stroke is
/// behind what needn't be heard.
const UNTOUCHED: &str = "\
s:save c:done s:complete => save' done' complete'
s:logout c:ask s:interact c:talked c:second s:phase2 c:done s:die => logout ask interact talked second phase2 done die
s:ping c:reply c:ping s:reply => ping' reply' ping' reply'
s:save c:ask c:done s:complete => save' ask' done' complete'";

/// A logout is called off before the client has answered.
const CALLED_OFF: &str = "\
s:logout c:done s:cancelled s:save c:reply c:done s:complete s:save => logout done cancelled ping+save - done complete save'
s:logout c:done s:cancelled c:done s:save c:done c:reply c:done s:complete => logout done cancelled - ping+save - - done complete
s:logout s:cancelled c:failed s:save c:reply c:done s:complete s:save => logout cancelled failed ping+save - done complete save'
s:logout s:cancelled t:1750 c:failed t:250 s:save => logout cancelled - failed - ping+save
s:logout s:cancelled t:2000 s:save s:complete c:done s:save c:done c:reply c:done => logout cancelled failed -<failed - - ping+save - - done
s:logout c:second s:cancelled t:1750 t:250 s:save c:reply c:done s:complete s:save => logout second cancelled - failed ping+save - done complete ping+save
s:logout c:ask s:cancelled t:1999 t:1 t:5000 s:logout c:reply c:ask s:interact c:talked c:done s:die => logout ask cancelled - failed - ping+logout - ask interact talked done die
s:logout s:cancelled t:2000 c:second s:save c:reply c:done => logout cancelled failed - ping+save - done
s:logout s:cancelled t:2000 s:logout c:failed c:done c:reply c:done s:die => logout cancelled failed - ->ping+logout - - done die
s:logout s:cancelled t:2000 s:logout s:cancelled c:failed s:save => logout cancelled failed - -<failed - ping+save
s:logout c:second s:phase2 s:cancelled t:2000 c:done s:save => logout second phase2 cancelled failed - ping+save";

/// A logout is called off while the client's dialog stands.
const DIALOGS: &str = "\
s:logout c:ask s:interact s:cancelled s:save s:complete c:failed s:save c:reply c:done s:complete s:save => logout ask interact cancelled<failed -<failed - - ping+save - done complete save'
s:logout c:ask s:interact s:cancelled t:60000 s:save s:complete => logout ask interact cancelled<failed - -<failed -
s:logout c:ask s:interact s:cancelled s:logout s:interact c:failed c:reply c:ask s:interact c:cancels s:cancelled => logout ask interact cancelled<failed -<ask - talked>ping+logout - ask interact cancels cancelled
s:logout c:ask s:interact s:cancelled s:logout c:failed s:interact c:reply c:done s:die => logout ask interact cancelled<failed -<ask - ping+logout<talked - done die
s:logout c:ask s:interact s:cancelled s:logout s:cancelled c:failed s:save => logout ask interact cancelled<failed -<ask -<failed - ping+save
s:logout c:ask s:interact s:cancelled s:logout s:interact s:cancelled c:failed s:save => logout ask interact cancelled<failed -<ask - -<failed - ping+save
s:logout c:ask s:interact s:cancelled s:errors s:interact c:talked c:failed c:reply => logout ask interact cancelled<failed -<error? - talked ->ping+errors -
s:logout c:ask s:interact s:cancelled s:mute c:talked c:failed c:reply c:done s:die => logout ask interact cancelled<failed - - ->ping+mute - done die
s:logout c:ask s:interact c:cancels s:cancelled c:failed s:save c:reply c:done => logout ask interact cancels cancelled failed ping+save - done
s:logout c:ask s:interact s:cancelled c:talked+failed s:save => logout ask interact cancelled<failed - ping+save
s:logout c:ask s:interact s:cancelled s:logout s:interact c:talked+failed c:reply => logout ask interact cancelled<failed -<ask - talked>ping+logout -
s:logout c:ask s:interact s:cancelled c:done+closed => logout ask interact cancelled<failed closed";

/// What comes in part isn't followed, and is handed on as it comes from then on.
const PARTS: &str = "\
s:logout s:cancelled c:010800 c:0000000000 t:2000 s:save => logout cancelled 010800 0000000000' - save'
s:logout s:cancelled t:2000 s:0203 s:0000010000000100000000000000 => logout cancelled failed 0203 0000010000000100000000000000'
s:logout s:cancelled c:012001 c:done => logout cancelled 012001 done'";

#[test]
fn others_are_untouched(rt: HostRuntime) -> Result<(), Fail> {
    expect_rows(&rt, UNTOUCHED, answers_shown)
}

#[test]
fn a_logout_is_called_off(rt: HostRuntime) -> Result<(), Fail> {
    expect_rows(&rt, CALLED_OFF, answers_shown)
}

#[test]
fn a_dialog_stands(rt: HostRuntime) -> Result<(), Fail> {
    expect_rows(&rt, DIALOGS, answers_shown)
}

#[test]
fn parts_are_handed_on(rt: HostRuntime) -> Result<(), Fail> {
    expect_rows(&rt, PARTS, answers_shown)
}
