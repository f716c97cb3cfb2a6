use smctl_app::{Fault, Task, read_request};
use std::alloc::{Alloc, Global};
use std::test::Fail;
use test_tables::{expect_rows, text_of};

/// The line of the order, or what else is asked for.
fn task_line(task: &Task) -> &str {
    match task {
        Task::Order(line) => str::from_utf8(line.as_slice()).unwrap_or("?"),
        Task::Table => "a table",
        Task::Plain => "plain lines",
        Task::Logout => "a logout",
    }
}

/// The control socket and what is asked for there, or why these words are refused.
fn asked_by(alloc: Global, words: &[String]) -> Result<String, Fail> {
    match read_request(alloc, words) {
        Ok(request) => {
            let control = request.control.unwrap_or("-");
            Ok(format!(in alloc; "{control} {:?}", task_line(&request.task))?)
        }
        Err(fault) => text_of(alloc, &fault),
    }
}

/// The same of words between which blanks stand.
fn asked(alloc: Global, line: &str) -> Result<String, Fail> {
    let mut words = Vec::new(alloc);
    for word in line.split(' ') {
        if !word.is_empty() {
            words.push(word.to_string(alloc)?)?;
        }
    }
    asked_by(alloc, words.as_slice())
}

const ORDERS: &str = "\
status => - \"status\\n\"
drop 3 => - \"drop 3\\n\"
--control /c forget x => /c \"forget x\\n\"
clients => - \"a table\"
--control /c clients --plain => /c \"plain lines\"
shutdown --wait => - \"a logout\"
clients --wait => BadWords
shutdown --plain => BadWords
clients --plain --plain => BadWords
 => BadWords
--control status => BadWords
drop 03 => BadWords";

#[test]
fn words_ask_for_something(rt: HostRuntime) -> Result<(), Fail> {
    expect_rows(&rt, ORDERS, asked)
}

#[test]
fn two_lines_are_no_order(rt: HostRuntime) -> Result<(), Fail> {
    let mut words = Vec::new(rt.alloc());
    words.push("status\nshutdown".to_string(rt.alloc())?)?;
    assert!(rt;
        matches!(
            read_request(rt.alloc(), words.as_slice()),
            Err(Fault::BadWords)
        )
    );
    Ok(())
}
