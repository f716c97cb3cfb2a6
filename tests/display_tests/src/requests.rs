//! Each request as the standard spells it (X protocol, appendix B; X-Resource 1.2), written down by hand.

use display_messages::{
    ClientMessage, PROPERTY_CHANGE, ReplyKind, Request, STRUCTURE_NOTIFY, SUBSTRUCTURE_NOTIFY,
    SUBSTRUCTURE_REDIRECT, a_sent_message_is_read, reply_kind, requests_state_their_length,
    spell_request,
};
use hex_rows::digits_of;
use ice_values::Text16;
use std::alloc::{Alloc, Global};
use std::process::Abort;
use std::test::Fail;
use test_tables::{expect_rows, text_of};

const WINDOW: u32 = 0x60_0075;

const PROTOCOLS: u32 = 0xf1;

fn text(alloc: Global, name: &str) -> Result<Text16, Fail> {
    Ok(Text16::from_slice(alloc, name.as_bytes())?)
}

fn send(message: ClientMessage) -> Request {
    Request::SendEvent {
        window: WINDOW,
        events: 0,
        message,
    }
}

/// That a window manager is to show the window.
fn activate() -> Request {
    Request::SendEvent {
        window: 0x1e6,
        events: SUBSTRUCTURE_NOTIFY | SUBSTRUCTURE_REDIRECT,
        message: ClientMessage::activate(WINDOW, 0x102),
    }
}

/// The request of a word, and of the name behind it.
fn request_of(alloc: Global, input: &str) -> Result<Request, Fail> {
    let (word, name) = input.split_once(' ').unwrap_or((input, ""));
    Ok(match word {
        "atom" => Request::InternAtom {
            name: text(alloc, name)?,
        },
        "property" => Request::GetProperty {
            window: WINDOW,
            property: 39,
            limit: 16_384,
        },
        "follow" => Request::ChangeWindowAttributes {
            window: WINDOW,
            events: PROPERTY_CHANGE | SUBSTRUCTURE_NOTIFY,
        },
        "leader" => Request::ChangeWindowAttributes {
            window: WINDOW,
            events: PROPERTY_CHANGE | STRUCTURE_NOTIFY,
        },
        "attributes" => Request::GetWindowAttributes { window: WINDOW },
        "tree" => Request::QueryTree { window: WINDOW },
        "close" => send(ClientMessage::close(WINDOW, PROTOCOLS, 0xf4)),
        "ping" => send(ClientMessage::ping(WINDOW, PROTOCOLS, 0x101, 0x1234_5678)),
        "activate" => activate(),
        "focus" => Request::GetInputFocus,
        "extension" => Request::QueryExtension {
            name: text(alloc, name)?,
        },
        "version" => Request::QueryResourceVersion { opcode: 148 },
        "ids" => Request::QueryClientIds {
            opcode: 148,
            window: WINDOW,
        },
        _ => return Err("no such request".into()),
    })
}

fn spelled(alloc: Global, input: &str) -> Result<String, Fail> {
    let bytes = spell_request(alloc, &request_of(alloc, input)?)?;
    digits_of(alloc, bytes.as_slice())
}

/// Names with two, one and no bytes of padding, and an empty one.
const REQUESTS: &str = "\
atom WM_STATE => 1000040008000000574d5f5354415445
atom _NET_WM_PID => 100005000b0000005f4e45545f574d5f50494400
atom => 1000020000000000
property => 140006007500600027000000000000000000000000400000
follow => 02000400750060000008000000004800
leader => 02000400750060000008000000004200
attributes => 0300020075006000
tree => 0f00020075006000
close => 19000b0075006000000000002120000075006000f1000000f400000000000000000000000000000000000000
ping => 19000b0075006000000000002120000075006000f10000000101000078563412750060000000000000000000
activate => 19000b00e6010000000018002120000075006000020100000200000000000000000000000000000000000000
focus => 2b000100
extension X-Resource => 620005000a000000582d5265736f757263650000
version => 9400020001020000
ids => 94040400010000007500600002000000";

#[test]
fn spelled_requests(rt: HostRuntime) -> Result<(), Fail> {
    requests_state_their_length();
    a_sent_message_is_read();
    expect_rows(&rt, REQUESTS, spelled)
}

fn kind(alloc: Global, input: &str) -> Result<String, Fail> {
    text_of(alloc, &reply_kind(&request_of(alloc, input)?))
}

const KINDS: &str = "\
atom A => Some(Atom)
property => Some(Property)
follow => None
attributes => Some(Attributes)
tree => Some(Tree)
close => None
focus => Some(Mark)
extension A => Some(Extension)
version => Some(ResourceVersion)
ids => Some(Process)";

#[test]
fn kinds_of_replies(rt: HostRuntime) -> Result<(), Fail> {
    assert_eq!(rt; ReplyKind::Atom == ReplyKind::Mark, false);
    expect_rows(&rt, KINDS, kind)
}
