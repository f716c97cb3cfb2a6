//! Rows of calls: the words, the script, the store, the turns and the failing call, and what comes of them.

use crate::calls::{called, counted, told};
use sm_world::Effect;
use std::process::Abort;
use std::test::Fail;
use test_tables::expect_rows;

/// As many turns as lines don't reach the end. A skipped line takes no turn, and a tick takes one.
const SPENT: &str = "\
rehearse; nothing; none; 0; 0 => 9 \"|smd: turns spent\\n|\"
rehearse; a join; none; 1; 0 => 9 \"join 1\\nsent 1 0001000000000000\\n|smd: turns spent\\n|\"
rehearse; a join; none; 2; 0 => 0 \"join 1\\nsent 1 0001000000000000\\nend\\n|\"
rehearse; a tick; none; 1; 0 => 9 \"tick 1\\n|smd: turns spent\\n|\"
exercise 18446744073709551615 1000; nothing; none; 0; 0 => 9 \"smd: turns spent\\n|\"";

#[test]
fn turns_are_spent(rt: HostRuntime) -> Result<(), Fail> {
    expect_rows(&rt, SPENT, told)
}

/// The first call reads the script, the second finds its end, and the third prints the trace.
const FAILING_REHEARSALS: &str = "\
rehearse; a join; none; 9; 1 => 6 \"\"
rehearse; a join; none; 9; 2 => 6 \"\"
rehearse; a join; none; 9; 3 => 6 \"\"
rehearse; a join of x; none; 9; 3 => 7 \"\"
rehearse; a join; none; 1; 4 => 9 \"join 1\\nsent 1 0001000000000000\\n|\"
; nothing; none; 9; 1 => 1 \"\"";

#[test]
fn calls_of_a_rehearsal_fail(rt: HostRuntime) -> Result<(), Fail> {
    expect_rows(&rt, FAILING_REHEARSALS, told)
}

/// Sessions by their words. A client is shut when the patience of the words is over, and never without
/// one.
const SESSIONS: &str = "\
serve; orders; blank; 99; 0 => 0 \"SESSION_MANAGER=local/h:/s\\n|connections 0, records 0, pending 0, epoch 1, idle\\n|no shutdown\\n|no connection\\n|unknown\\n|ok\\n|\"
serve --socket /s --patience 1000 --control /c --store /f --authority /a; a silence; blank; 99; 0 => 0 \"SESSION_MANAGER=local/h:/s\\n|connections 1, records 0, pending 0, epoch 1, saving\\n|connections 0, records 0, pending 0, epoch 1, idle\\n|\"
serve; a silence; blank; 99; 0 => 0 \"SESSION_MANAGER=local/h:/s\\n|connections 1, records 0, pending 0, epoch 1, saving\\n|connections 1, records 0, pending 0, epoch 1, saving\\n|\"";

#[test]
fn sessions_say_where_they_are_and_serve(rt: HostRuntime) -> Result<(), Fail> {
    expect_rows(&rt, SESSIONS, told)
}

const REFUSED_STORES: &str = "\
serve; nothing; damaged; 99; 0 => 2 \"SESSION_MANAGER=local/h:/s\\n|smd: store damaged at 80\\n|\"
serve; nothing; none; 99; 0 => 3 \"SESSION_MANAGER=local/h:/s\\n|smd: store has size 0\\n|\"
serve; nothing; worn; 99; 0 => 8 \"SESSION_MANAGER=local/h:/s\\n|smd: store worn\\n|\"
serve; nothing; eight; 99; 0 => 12 \"SESSION_MANAGER=local/h:/s\\n|smd: too many sessions\\n|\"
serve --session i --socket /s --control /c --store /f --authority /a; nothing; eight; 99; 0 => 12 \"SESSION_MANAGER=local/h:/s\\n|smd: too many sessions\\n|\"";

#[test]
fn a_store_that_is_none_is_refused(rt: HostRuntime) -> Result<(), Fail> {
    expect_rows(&rt, REFUSED_STORES, told)
}

/// The session of a store that has eight: one of them, and a ninth, before which nothing is written.
const NAMED: &str = "\
serve --session h --socket /s --control /c --store /f --authority /a; orders; eight; 99; 0 => 0 \"SESSION_MANAGER=local/h:/s\\n|connections 0, records 1, pending 0, epoch 2, idle\\n|no shutdown\\n|no connection\\n|unknown\\n|ok\\n|\"
serve --session work --socket /s --control /c --store /f --authority /a; orders; blank; 99; 0 => 0 \"SESSION_MANAGER=local/h:/s\\n|connections 0, records 0, pending 0, epoch 1, idle\\n|no shutdown\\n|no connection\\n|unknown\\n|ok\\n|\"";

#[test]
fn a_session_is_run_by_its_name(rt: HostRuntime) -> Result<(), Fail> {
    expect_rows(&rt, NAMED, told)
}

/// Words of a session: the pairs in another order, the longest path, and a name in front or behind. A
/// name of 65 bytes, two names, and a pair that none knows are no words.
const WORDS: &str = "\
serve --authority /a --store /f --control /c --socket /s; nothing; none; 0; 0 => 3/3
serve --control /c --store /f --authority /a --socket LONGEST; nothing; none; 0; 0 => 3/3
serve --session work --control /c --store /f --authority /a --socket /s; nothing; none; 0; 0 => 3/3
serve --patience 5 --control /c --store /f --authority /a --socket /s --session !~; nothing; none; 0; 0 => 3/3
serve --session 12345678901234567890123456789012345678901234567890123456789012345 --control /c --store /f --authority /a --socket /s; nothing; none; 0; 0 => 1/1
serve --session a --session b --control /c --store /f --authority /a --socket /s; nothing; none; 0; 0 => 1/1
serve --name a --control /c --store /f --authority /a --socket /s; nothing; none; 0; 0 => 1/1";

#[test]
fn words_of_a_session(rt: HostRuntime) -> Result<(), Fail> {
    expect_rows(&rt, WORDS, counted)
}

/// The store is taken, the file published, the sockets opened, the line printed; then the session asks
/// for the store's size. Three calls read the blank store, and six write its first book; then the first
/// client comes.
const FAILING_SESSIONS: &str = "\
serve; a session; blank; 99; 1 => 4/1
serve; a session; blank; 99; 2 => 4/1
serve; a session; blank; 99; 3 => 5/2
serve; a session; blank; 99; 4 => 6/1
serve; a session; blank; 99; 5 => 4/3
serve; a session; blank; 99; 13 => 4/9
serve; a session; blank; 99; 14 => 5/9";

#[test]
fn calls_of_a_session_fail(rt: HostRuntime) -> Result<(), Fail> {
    expect_rows(&rt, FAILING_SESSIONS, counted)
}

/// The file from which a client at `/s` has the cookie.
const AUTHORITY: &[u8] = b"\0\x03ICE\0\0\0\x0alocal/h:/s\0\x12MIT-MAGIC-COOKIE-1\
\0\x10\0\x01\x02\x03\x04\x05\x06\x07\x08\x09\x0a\x0b\x0c\x0d\x0e\x0f\
\0\x04XSMP\0\0\0\x0alocal/h:/s\0\x12MIT-MAGIC-COOKIE-1\
\0\x10\0\x01\x02\x03\x04\x05\x06\x07\x08\x09\x0a\x0b\x0c\x0d\x0e\x0f";

/// Whether these effects begin with the file, the line and the first write of the session.
fn are_in_order(effects: &[Effect]) -> bool {
    match effects {
        [
            Effect::Published(path, bytes),
            Effect::Printed(_),
            Effect::Wrote(0, _),
            Effect::Synced,
            ..
        ] => path.as_slice() == b"/a".as_slice() && bytes.as_slice() == AUTHORITY,
        _ => false,
    }
}

#[test]
fn the_file_comes_before_the_line_and_the_line_before_the_session(
    rt: HostRuntime,
) -> Result<(), Fail> {
    let (status, world) = called(rt.alloc(), "serve; nothing; blank; 0; 0")?;
    assert_eq!(rt; status, 9);
    assert!(rt; are_in_order(world.effects()));
    Ok(())
}
