//! What a display answers that holds the facts of a table. A fact is a line of words:
//! `n WINDOW ATOM V..` a property of numbers, `t WINDOW ATOM TEXT` one of text, `a WINDOW CLASS MAPPED OVERRIDE EVENTS` its
//! attributes, `c WINDOW CHILD..` its children, `i WINDOW PROCESS` its process, `x` that X-Resource is there.
use display_messages::Request;
use owned_lists::Octets;
use std::alloc::Global;
use std::test::Fail;

/// Adds a number of four bytes.
pub fn put(bytes: &mut Octets, number: u32) -> Result<(), Fail> {
    bytes.append(&[
        (number % 256) as u8,
        (number / 256 % 256) as u8,
        (number / 65536 % 256) as u8,
        (number / 16777216) as u8,
    ])?;
    Ok(())
}

/// The first four bytes of a reply or an Error.
fn head(bytes: &mut Octets, code: u8, own: u8, sequence: u16) -> Result<(), Fail> {
    bytes.append(&[code, own, (sequence % 256) as u8, (sequence / 256) as u8])?;
    Ok(())
}

/// Zeros up to so many bytes.
pub fn fill(bytes: &mut Octets, count: usize) -> Result<(), Fail> {
    while bytes.len() < count {
        bytes.append(&[0])?;
    }
    Ok(())
}

/// An Error with this code.
pub fn error(alloc: Global, sequence: u16, code: u8) -> Result<Octets, Fail> {
    let mut bytes = Octets::new(alloc);
    head(&mut bytes, 0, code, sequence)?;
    fill(&mut bytes, 32)?;
    Ok(bytes)
}

/// A reply of 32 bytes with these numbers from its eighth byte on.
pub fn reply(alloc: Global, sequence: u16, own: u8, numbers: &[u32]) -> Result<Octets, Fail> {
    let mut bytes = Octets::new(alloc);
    head(&mut bytes, 1, own, sequence)?;
    put(&mut bytes, 0)?;
    for number in numbers {
        put(&mut bytes, *number)?;
    }
    fill(&mut bytes, 32)?;
    Ok(bytes)
}

/// The words behind these in the first fact that begins with them.
fn fact<'a>(world: &'a str, begins: &str) -> Option<&'a str> {
    for line in world.split(';') {
        let line = line.trim();
        if line == begins {
            return Some("");
        }
        if let Some(rest) = line.strip_prefix(begins) {
            if let Some(words) = rest.strip_prefix(' ') {
                return Some(words);
            }
        }
    }
    None
}

fn property(
    alloc: Global,
    world: &str,
    sequence: u16,
    window: u32,
    atom: u32,
) -> Result<Octets, Fail> {
    let numbers = format!(in alloc; "n {window} {atom}")?;
    if let Some(words) = fact(world, numbers.as_str()) {
        let count = words.split(' ').filter(|word| !word.is_empty()).count() as u32;
        let mut bytes = reply(alloc, sequence, 32, &[19, 0, count])?;
        for word in words.split(' ') {
            if !word.is_empty() {
                put(&mut bytes, word.parse::<u32>()?)?;
            }
        }
        return Ok(bytes);
    }
    let text = format!(in alloc; "t {window} {atom}")?;
    if let Some(words) = fact(world, text.as_str()) {
        let mut bytes = reply(alloc, sequence, 8, &[31, 0, words.len() as u32])?;
        bytes.append(words.as_bytes())?;
        return Ok(bytes);
    }
    reply(alloc, sequence, 0, &[])
}

fn attributes(alloc: Global, world: &str, sequence: u16, window: u32) -> Result<Octets, Fail> {
    let begins = format!(in alloc; "a {window}")?;
    let Some(words) = fact(world, begins.as_str()) else {
        return error(alloc, sequence, 3);
    };
    let mut numbers = Vec::new(alloc);
    for word in words.split(' ') {
        numbers.push(word.parse::<u32>()?)?;
    }
    let mut bytes = reply(alloc, sequence, 0, &[0, numbers[0], 0, 0])?;
    bytes.truncate(26);
    bytes.append(&[numbers[1] as u8, numbers[2] as u8])?;
    put(&mut bytes, 0)?;
    put(&mut bytes, numbers[3])?;
    fill(&mut bytes, 44)?;
    Ok(bytes)
}

fn children(alloc: Global, world: &str, sequence: u16, window: u32) -> Result<Octets, Fail> {
    let begins = format!(in alloc; "c {window}")?;
    let words = fact(world, begins.as_str()).unwrap_or("");
    let count = words.split(' ').filter(|word| !word.is_empty()).count() as u32;
    let mut bytes = reply(alloc, sequence, 0, &[0, 0, count])?;
    for word in words.split(' ') {
        if !word.is_empty() {
            put(&mut bytes, word.parse::<u32>()?)?;
        }
    }
    Ok(bytes)
}

fn process(alloc: Global, world: &str, sequence: u16, window: u32) -> Result<Octets, Fail> {
    let begins = format!(in alloc; "i {window}")?;
    let Some(words) = fact(world, begins.as_str()) else {
        return reply(alloc, sequence, 0, &[0]);
    };
    let mut bytes = reply(alloc, sequence, 0, &[1])?;
    put(&mut bytes, window)?;
    put(&mut bytes, 2)?;
    put(&mut bytes, 4)?;
    put(&mut bytes, words.parse::<u32>()?)?;
    Ok(bytes)
}

/// What the display answers to a request of this number; nothing where it went well and has no answer.
/// The atom of each name is 100 and the number of the request that asks for it.
pub fn answer(
    alloc: Global,
    world: &str,
    sequence: u16,
    request: &Request,
) -> Result<Option<Octets>, Fail> {
    let bytes = match request {
        Request::InternAtom { .. } => reply(alloc, sequence, 0, &[100 + sequence as u32])?,
        Request::GetProperty {
            window,
            property: atom,
            ..
        } => property(alloc, world, sequence, *window, *atom)?,
        Request::ChangeWindowAttributes { .. } => return Ok(None),
        Request::GetWindowAttributes { window } => attributes(alloc, world, sequence, *window)?,
        Request::QueryTree { window } => children(alloc, world, sequence, *window)?,
        Request::SendEvent { .. } => return Ok(None),
        Request::GetInputFocus => reply(alloc, sequence, 0, &[])?,
        Request::QueryExtension { .. } => match fact(world, "x") {
            Some(_) => reply(alloc, sequence, 0, &[1 + 148 * 256])?,
            None => reply(alloc, sequence, 0, &[0])?,
        },
        Request::QueryResourceVersion { .. } => reply(alloc, sequence, 0, &[1 + 2 * 65536])?,
        Request::QueryClientIds { window, .. } => process(alloc, world, sequence, *window)?,
    };
    Ok(Some(bytes))
}

/// An event of this code with these numbers from its fourth byte on.
pub fn event(alloc: Global, code: u8, numbers: &[u32]) -> Result<Octets, Fail> {
    let mut bytes = Octets::new(alloc);
    head(&mut bytes, code, 32, 0)?;
    for number in numbers {
        put(&mut bytes, *number)?;
    }
    fill(&mut bytes, 32)?;
    Ok(bytes)
}
