use smctl_app::{Course, Glance, Logout, read_client_line, read_course};
use std::alloc::Global;
use std::test::Fail;
use test_tables::{expect_rows, text_of};

/// What the session is at, by this last word of its status.
fn course(alloc: Global, word: &str) -> Result<String, Fail> {
    let line = format!(in alloc; "connections 3, records 3, pending 0, epoch 1, {word}")?;
    text_of(alloc, &read_course(line.as_str()))
}

const COURSES: &str = "\
idle => Some(Idle)
saving => Some(Saving)
shutdown => Some(Leaving)
ending => Some(Leaving)
idl => None";

#[test]
fn what_the_session_is_at_is_read(rt: HostRuntime) -> Result<(), Fail> {
    assert!(rt; read_course("idle") == None);
    expect_rows(&rt, COURSES, course)
}

/// The line of a client that owes its save, that can't be read, or that owes nothing.
fn line_of(letter: char) -> &'static str {
    match letter {
        'o' =>
            "conn=1 holds=yes stage=saving logout=no silent=0 asked=none answered=none id=- program=-",
        'u' =>
            "conn=1 holds=no stage=unreadable logout=no silent=0 asked=none answered=none id=- program=-",
        _ =>
            "conn=1 holds=no stage=idle logout=no silent=0 asked=none answered=none id=- program=-",
    }
}

/// Whether the last of some looks shows that the logout was cancelled. Each is two letters: `o` where
/// somebody owes a save, `u` where somebody can't be read, `n` where somebody is there and owes nothing
/// and `-` where nobody is there; then `i` where the session is idle, `s` where it saves and `l` where it
/// logs out.
fn is_cancelled(looks: &str) -> bool {
    let mut logout = Logout::new();
    for look in looks.split(' ') {
        let course = match look.chars().last() {
            Some('i') => Course::Idle,
            Some('s') => Course::Saving,
            _ => Course::Leaving,
        };
        match look.chars().next() {
            Some('-') => logout.look(Glance::of(&[], course)),
            Some(letter) => {
                if let Some(client) = read_client_line(line_of(letter)) {
                    logout.look(Glance::of(&[client], course));
                }
            }
            None => {}
        }
    }
    logout.is_cancelled()
}

const LOOKS: &str = "\
ol ni => true
ol oi => true
oi ol ni => true
ni => true
ol -i => true
ol os => true
ol nl => false
oi => false
ui => false
os => false
ns => false
oi ol => false
-l => false";

#[test]
fn a_logout_is_cancelled_or_not(rt: HostRuntime) -> Result<(), Fail> {
    expect_rows(
        &rt,
        LOOKS,
        |alloc, looks| text_of(alloc, &is_cancelled(looks)),
    )
}
