use owned_lists::{NoMemory, NumberList, Octets};
use program_frame::{
    OwnTexts, StandardConsole, are_one_word, conclude, read_input, read_words, try_line,
};
use sm_world::{Console, Effect, EventList, MemWorld, SteadyWorld};
use std::alloc::Global;
use std::io;
use std::io::ErrorKind;
use std::test::Fail;
use test_tables::{expect_rows, text_of};
use worked_values::Trouble;

const TEXTS: OwnTexts = OwnTexts {
    help: "help",
    version: "version",
    no_memory: "no memory",
};

/// The words of a line.
fn words_in(alloc: Global, line: &str) -> Result<Vec<String>, Fail> {
    let mut list = Vec::new(alloc);
    for word in line.split_whitespace() {
        list.push(word.to_string(alloc)?)?;
    }
    Ok(list)
}

/// What the words of a line are answered.
fn answer_to(alloc: Global, line: &str) -> Result<String, Fail> {
    let words = words_in(alloc, line)?;
    text_of(alloc, &TEXTS.answer(words.as_slice()))
}

const ANSWERS: &str = "\
--help => Some(\"help\")
--version => Some(\"version\")
--help --help => None
show => None
 => None";

#[test]
fn the_two_words_are_answered_alone(rt: HostRuntime) -> Result<(), Fail> {
    expect_rows(&rt, ANSWERS, answer_to)
}

#[test]
fn the_words_leave_out_the_name_of_the_program(rt: HostRuntime) -> Result<(), Fail> {
    // A test has one word: its own name.
    assert_eq!(rt; read_words(&rt)?.len(), 1);
    Ok(())
}

#[test]
fn the_console_prints(rt: HostRuntime) -> Result<(), Fail> {
    let mut console = StandardConsole::new(rt);
    assert_eq!(rt; console.print(b"").is_ok(), true);
    Ok(())
}

/// A world with two lines of input, the last without its newline.
fn read_world(alloc: Global) -> Result<SteadyWorld, NoMemory> {
    let input = Octets::from_slice(alloc, b"line\n1")?;
    SteadyWorld::new(alloc, EventList::new(alloc), input, Octets::new(alloc))
}

/// What is read of the input up to a limit.
fn input_within(alloc: Global, limit: &str) -> Result<String, Fail> {
    let limit = limit.parse::<usize>()?;
    let mut world = read_world(alloc)?;
    let read = read_input(alloc, &mut world, limit)?;
    text_of(alloc, &str::from_utf8(read.as_slice())?)
}

const INPUTS: &str = "\
0 => \"\"
4 => \"line\"
6 => \"line\\n1\"
99 => \"line\\n1\"";

#[test]
fn the_input_is_read_to_its_end_or_to_the_limit(rt: HostRuntime) -> Result<(), Fail> {
    expect_rows(&rt, INPUTS, input_within)
}

/// A world without input whose second call fails.
fn failing_world(alloc: Global) -> Result<MemWorld, NoMemory> {
    let mut failing = NumberList::new(alloc);
    failing.push(2)?;
    let events = EventList::new(alloc);
    let input = Octets::new(alloc);
    MemWorld::new(alloc, events, input, Octets::new(alloc), failing)
}

#[test]
fn a_refused_line_is_not_tried_again(rt: HostRuntime) -> Result<(), Fail> {
    let mut world = failing_world(rt.alloc())?;
    try_line(&mut world, b"one\n");
    try_line(&mut world, b"two\n");
    assert_eq!(rt; world.effects().len(), 1);
    let first = world.effects().first();
    assert!(rt;
        matches!(first, Some(Effect::Printed(text)) if text.as_slice() == b"one\n".as_slice())
    );
    Ok(())
}

#[test]
fn one_word_of_a_command_line(rt: HostRuntime) -> Result<(), Fail> {
    let alloc = rt.alloc();
    let mut words = Vec::new(alloc);
    assert!(rt; !are_one_word(words.as_slice(), "status"));
    words.push("status".to_string(alloc)?)?;
    assert!(rt; are_one_word(words.as_slice(), "status"));
    assert!(rt; !are_one_word(words.as_slice(), "statu"));
    assert!(rt; !are_one_word(words.as_slice(), ""));
    words.push("status".to_string(alloc)?)?;
    assert!(rt; !are_one_word(words.as_slice(), "status"));
    Ok(())
}

/// A world whose calls don't fail.
fn quiet_world(alloc: Global) -> Result<SteadyWorld, NoMemory> {
    SteadyWorld::new(
        alloc,
        EventList::new(alloc),
        Octets::new(alloc),
        Octets::new(alloc),
    )
}

/// Whether this text was printed, and nothing else was done.
fn has_printed(effects: &[Effect], text: &[u8]) -> bool {
    match effects {
        [Effect::Printed(printed)] => printed.as_slice() == text,
        _ => false,
    }
}

#[test]
fn a_run_ends_with_its_status_and_its_line(rt: HostRuntime) -> Result<(), Fail> {
    let alloc = rt.alloc();
    let mut world = quiet_world(alloc)?;
    assert_eq!(rt;
        conclude::<Trouble, SteadyWorld>(alloc, &mut world, Ok(())),
        0
    );
    assert_eq!(rt; world.effects().len(), 0);
    assert_eq!(rt; conclude(alloc, &mut world, Err(Trouble(17))), 2);
    assert!(rt; has_printed(world.effects(), b"trouble at 17\n"));
    Ok(())
}

/// What a program gives these words, how many it hands on or its status, and what it did.
fn begin_in(alloc: Global, world: &mut SteadyWorld, line: &str) -> Result<String, Fail> {
    let begun = TEXTS.begin(Ok(words_in(alloc, line)?), world);
    let count = begun.map(|words| words.len());
    let effects = text_of(alloc, &world.effects())?;
    Ok(format!(in alloc; "{count:?} {effects}")?)
}

fn begun(alloc: Global, line: &str) -> Result<String, Fail> {
    let mut world = quiet_world(alloc)?;
    begin_in(alloc, &mut world, line)
}

const BEGUN: &str = "\
show --help => Ok(2) []
--help => Err(0) [Printed(Octets { bytes: [104, 101, 108, 112] })]
--version => Err(0) [Printed(Octets { bytes: [118, 101, 114, 115, 105, 111, 110] })]";

#[test]
fn a_program_begins_with_its_words(rt: HostRuntime) -> Result<(), Fail> {
    expect_rows(&rt, BEGUN, begun)
}

#[test]
fn without_its_words_a_program_is_done(rt: HostRuntime) -> Result<(), Fail> {
    let mut world = quiet_world(rt.alloc())?;
    let unread = io::Error::from(ErrorKind::OutOfMemory);
    assert_eq!(rt; TEXTS.begin(Err(unread), &mut world).err(), Some(10));
    assert!(rt; has_printed(world.effects(), b"no memory"));
    Ok(())
}
