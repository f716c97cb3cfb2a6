//! A few clients, by cases written down by hand.
ghost use Rattle.std.specs.Prelude.{◌≡◌, false};
ghost use Rattle.session_clients.specs.Clients.{is_reply as is_reply_message};

use crate::written::{book_beside, book_of, entry, removal, words};
use checkpoint_records::{Book, EntryList};
use ice_values::{
    Dialog, Endian, PropertyList, PropertyWalk, SaveKind, SaveStyle, walk_properties,
};
use owned_lists::{NoMemory, Octets};
use round_agreement::Wanted;
use session_clients::{
    Clients, entry_of, first_table, given, is_bound, is_dying, is_first_saving, is_interacting,
    is_owing, is_recorded, is_reply, is_saving, is_shutdown, is_unregistered, may_interact,
    readied, said,
};
use session_model::Phase;
use sm_world::Conn;
use std::alloc::{Alloc, Global};
use std::process::Abort;
use std::test::Fail;
use test_tables::{expect_rows, text_of};
use xsmp_messages::{XsmpMessage, encode_xsmp};
use xsmp_properties::{PropertyTable, SetRefusal};

/// An entry under this ID.
fn one_entry(alloc: Global, id: &[u8]) -> Result<EntryList, SetRefusal> {
    let mut entries = EntryList::new(alloc);
    entries.push(entry(alloc, id, &removal(alloc, b"DiscardCommand", b"a")?)?)?;
    Ok(entries)
}

/// A book with an entry under this ID.
fn book(alloc: Global, id: &[u8]) -> Result<Book, SetRefusal> {
    Ok(book_of(alloc, one_entry(alloc, id)?)?)
}

/// A book without entries, beside another session with an entry under this ID.
fn elsewhere(alloc: Global, id: &[u8]) -> Result<Book, SetRefusal> {
    Ok(book_beside(alloc, EntryList::new(alloc), one_entry(alloc, id)?)?)
}

fn shutdown(style: SaveStyle) -> Option<Wanted> {
    Some(Wanted {
        only: None,
        from: None,
        kind: SaveKind::Both,
        shutdown: true,
        style,
        fast: false,
    })
}

fn save_yourself() -> XsmpMessage
    ensures { is_reply_message result ≡ false }
{
    XsmpMessage::SaveYourself {
        kind: SaveKind::Both,
        shutdown: true,
        style: SaveStyle::Errors,
        fast: false,
    }
}

/// Three connections: XSMP has begun on the first two, and the first is registered as `one`.
fn three(alloc: Global) -> Result<Clients, NoMemory> {
    let mut clients = Clients::new(alloc);
    clients.join(1)?;
    clients.join(2)?;
    clients.join(3)?;
    clients.ready(1);
    clients.ready(2);
    let id = Octets::from_slice(alloc, b"one")?;
    clients.register(1, id, PropertyTable::new(alloc)?)?;
    Ok(clients)
}

/// Properties of more bytes than a table may have.
fn large(alloc: Global) -> Result<PropertyList, NoMemory> {
    removal(alloc, b"DiscardCommand", &[b'a'; 16_384])
}

/// What a client says: how it saved, that it has no DiscardCommand any more, a large one, or one of
/// this file.
fn told(alloc: Global, what: &str) -> Result<XsmpMessage, Fail> {
    match what {
        "saved" => Ok(XsmpMessage::SaveYourselfDone { success: true }),
        "failed" => Ok(XsmpMessage::SaveYourselfDone { success: false }),
        "deletes" => Ok(XsmpMessage::DeleteProperties {
            names: words(alloc, &[b"DiscardCommand"])?,
        }),
        "grows" => Ok(XsmpMessage::SetProperties {
            properties: large(alloc)?,
        }),
        _ => Ok(XsmpMessage::SetProperties {
            properties: removal(alloc, b"DiscardCommand", what.as_bytes())?,
        }),
    }
}

/// The usual frame of what a client says.
fn frame_told(alloc: Global, what: &str) -> Result<Octets, Fail> {
    let message = told(alloc, what)?;
    let mut frame = Octets::new(alloc);
    encode_xsmp(Endian::Lsb, 1, &message, &mut frame)?;
    Ok(frame)
}

/// The properties of a frame where they lie.
fn walk_of(frame: &[u8]) -> Option<PropertyWalk<'_>> {
    match walk_properties(Endian::Lsb, frame.get(8..)?) {
        Ok(found) => Some(found.0),
        Err(_) => None,
    }
}

/// A client sets what it says where that lies.
fn set_told(alloc: Global, clients: &mut Clients, conn: Conn, what: &str) -> Result<(), Fail> {
    let frame = frame_told(alloc, what)?;
    let walk = walk_of(frame.as_slice()).ok_or("no list")?;
    clients.set(conn, walk)?;
    Ok(())
}

/// Whether what a client says would be too much where it lies.
fn is_too_much(alloc: Global, clients: &Clients, conn: Conn, what: &str) -> Result<bool, Fail> {
    let frame = frame_told(alloc, what)?;
    let walk = walk_of(frame.as_slice()).ok_or("no list")?;
    Ok(clients.would_be_full_of(conn, walk)?)
}

/// A connection is given back, or is gone; a client is sent something; it sets something where that
/// lies; or else it says something.
fn change(alloc: Global, clients: &mut Clients, conn: Conn, what: &str) -> Result<(), Fail> {
    match what {
        "unset" => clients.unset(conn),
        "leaves" => clients.leave(conn),
        "asked" => clients.give(conn, &save_yourself()),
        "complete" => clients.give(conn, &XsmpMessage::SaveComplete),
        "cancelled" => clients.give(conn, &XsmpMessage::ShutdownCancelled),
        _ => match what.strip_prefix("sets ") {
            Some(list) => set_told(alloc, clients, conn, list)?,
            None => clients.hear(conn, &told(alloc, what)?, None)?,
        },
    }
    Ok(())
}

fn has_discard(table: Option<&PropertyTable>) -> bool {
    table.is_some_and(|table| table.get(b"DiscardCommand").is_some())
}

/// Whether something is so of what a client says of itself: there is a table, or a snapshot; there is a
/// DiscardCommand in either, or one to be run; a small list or a large one would be too much, or else
/// what it says would be, where that lies.
fn is_so_of_table(alloc: Global, clients: &Clients, conn: Conn, what: &str) -> Result<bool, Fail> {
    match what {
        "table" => Ok(clients.table(conn).is_some()),
        "snapshot" => Ok(clients.saved(conn).is_some()),
        "told" => Ok(has_discard(clients.table(conn))),
        "kept" => Ok(has_discard(clients.saved(conn))),
        "discard" => Ok(clients.discard(conn)?.is_some()),
        "small" => {
            let list = removal(alloc, b"DiscardCommand", b"a")?;
            Ok(clients.would_be_full(conn, &list)?)
        }
        "large" => Ok(clients.would_be_full(conn, &large(alloc)?)?),
        _ => is_too_much(alloc, clients, conn, what),
    }
}

/// Whether something is so of a connection: it is live, has a phase, is bound or unregistered, has an
/// ID, or else something of its table.
fn is_so(alloc: Global, clients: &Clients, conn: Conn, what: &str) -> Result<bool, Fail> {
    match what {
        "live" => Ok(clients.is_live(conn)),
        "phase" => Ok(clients.phase(conn).is_some()),
        "bound" => Ok(is_bound(clients.phase(conn))),
        "unregistered" => Ok(is_unregistered(clients.phase(conn))),
        "id" => Ok(clients.id(conn).is_some()),
        "one" => Ok(
            clients
                .id(conn)
                .is_some_and(|id| id.as_slice() == b"one".as_slice()),
        ),
        _ => is_so_of_table(alloc, clients, conn, what),
    }
}

/// Who has an ID, which is also looked up in the list of the registered ones.
fn found(alloc: Global, clients: &Clients, id: &str) -> Result<String, Fail> {
    match id.strip_prefix("listed ") {
        Some(id) => text_of(alloc, &clients.registered_ids()?.client_of(id.as_bytes())),
        None => text_of(alloc, &clients.client_of(id.as_bytes())),
    }
}

/// What is so of all: how many are live, and how many rows there are; who is registered, and who isn't;
/// whether anyone owes an answer; how many commands stand; or else whose ID this is.
fn of_all(alloc: Global, clients: &Clients, what: &str) -> Result<String, Fail> {
    match what {
        "live" => text_of(alloc, &clients.live_count()),
        "rows" => text_of(alloc, &clients.rows().len()),
        "registered" => text_of(alloc, &clients.registered()),
        "unregistered" => text_of(alloc, &clients.unregistered()?.as_slice()),
        "owing" => text_of(alloc, &clients.is_anyone_owing()),
        "standing" => text_of(alloc, &clients.standing()?.as_slice().len()),
        _ => found(alloc, clients, what),
    }
}

/// What is asked, of all or of one connection.
fn answer(alloc: Global, clients: &Clients, who: &str, what: &str) -> Result<String, Fail> {
    if who == "all" {
        return of_all(alloc, clients, what);
    }
    text_of(alloc, &is_so(alloc, clients, who.parse::<Conn>()?, what)?)
}

/// A step: something happens to a connection, or is asked.
fn take_step(
    alloc: Global,
    clients: &mut Clients,
    step: &str,
    text: &mut String,
) -> Result<(), Fail> {
    let (who, what) = step.split_once(' ').ok_or("nobody does it")?;
    match what.strip_suffix('?') {
        Some(asked) => {
            text.push_str(answer(alloc, clients, who, asked)?.as_str())?;
            text.push(' ')?;
            Ok(())
        }
        None => change(alloc, clients, who.parse::<Conn>()?, what),
    }
}

fn take_steps(
    alloc: Global,
    clients: &mut Clients,
    steps: &str,
    text: &mut String,
) -> Result<(), Fail> {
    for step in steps.split(", ") {
        take_step(alloc, clients, step, text)?;
    }
    Ok(())
}

/// What is answered to the questions among these steps of the three connections.
fn three_shown(alloc: Global, steps: &str) -> Result<String, Fail> {
    let mut clients = three(alloc)?;
    let mut text = String::new(alloc);
    take_steps(alloc, &mut clients, steps, &mut text)?;
    Ok(text.trim_end().to_string(alloc)?)
}

/// Connections join and register, are found, and leave.
const CONNECTIONS: &str = "\
all live?, all rows?, all registered?, 1 bound?, 2 unregistered?, 3 phase?, 1 one?, 2 id? => 3 3 [1] true true false true false
all one?, all two?, 3 live?, 4 live?, 3 table?, 4 table?, all unregistered? => Some(1) None true false true false [2, 3]
2 unset, 2 phase?, 1 leaves, 1 live?, all registered?, all one? => false false [] None
all listed one?, all listed two?, all listed ona?, 1 leaves, all listed one? => Some(1) None None None";

#[test]
fn connections_join_register_and_leave(rt: HostRuntime) -> Result<(), Fail> {
    expect_rows(&rt, CONNECTIONS, three_shown)
}

/// A registered client sets properties and deletes them; a table has its limit, and a list that doesn't
/// fit isn't set.
const PROPERTIES: &str = "\
1 a, 2 b, 1 told?, 2 told?, all standing? => true false 1
1 a, 2 b, 1 discard?, 1 deletes, 1 discard? => true false
1 small?, 1 large? => false true
1 grows, 1 told? => false
1 sets a, 2 sets b, 1 told?, 2 told?, all standing? => true false 1
1 a?, 1 grows?, 4 a?, 4 grows? => false true false true
1 sets grows, 1 told? => false";

#[test]
fn clients_set_and_delete_properties(rt: HostRuntime) -> Result<(), Fail> {
    expect_rows(&rt, PROPERTIES, three_shown)
}

/// A snapshot is of a save that was a success, until the next one; and a client owes an answer after a
/// cancelled round.
const SAVES: &str = "\
1 asked, 1 failed, 1 snapshot?, 1 complete, 1 a, 1 asked, 1 saved, 1 kept?, 1 complete, 1 kept?, 1 asked, 1 snapshot? => false true true false
1 asked, all owing?, 1 cancelled, all owing?, 1 failed, all owing? => false true false";

#[test]
fn clients_save(rt: HostRuntime) -> Result<(), Fail> {
    expect_rows(&rt, SAVES, three_shown)
}

/// How many IDs are known beside a book with an entry of this one.
fn known_shown(alloc: Global, id: &str) -> Result<String, Fail> {
    let clients = three(alloc)?;
    let book = book(alloc, id.as_bytes())?;
    text_of(alloc, &clients.known_ids(&book))
}

/// The same where another session has it.
fn known_elsewhere(alloc: Global, id: &str) -> Result<String, Fail> {
    let clients = three(alloc)?;
    let book = elsewhere(alloc, id.as_bytes())?;
    text_of(alloc, &clients.known_ids(&book))
}

/// Whether a book has an entry with this ID, finds it, and a client begins with it.
fn entry_in(alloc: Global, book: &Book, id: &[u8]) -> Result<String, Fail> {
    let (is, found) = (is_recorded(book, id), entry_of(book, id).is_some());
    let begins = has_discard(Some(&first_table(alloc, book, id)?));
    Ok(format!(in alloc; "{is} {found} {begins}")?)
}

fn entry_shown(alloc: Global, id: &str) -> Result<String, Fail> {
    entry_in(alloc, &book(alloc, b"one")?, id.as_bytes())
}

/// The same where another session has the entry.
fn elsewhere_shown(alloc: Global, id: &str) -> Result<String, Fail> {
    entry_in(alloc, &elsewhere(alloc, b"one")?, id.as_bytes())
}

#[test]
fn a_client_begins_with_its_entry(rt: HostRuntime) -> Result<(), Fail> {
    expect_rows(&rt, "one => 1\ntwo => 2", known_shown)?;
    let rows = "one => true true true\ntwo => false false false";
    expect_rows(&rt, rows, entry_shown)
}

#[test]
fn an_id_of_another_session_is_known_alone(rt: HostRuntime) -> Result<(), Fail> {
    expect_rows(&rt, "one => 1\ntwo => 2", known_elsewhere)?;
    expect_rows(&rt, "one => false false false", elsewhere_shown)
}

fn asks(dialog: Dialog, style: SaveStyle) -> Option<Phase> {
    let message = XsmpMessage::InteractRequest { dialog };
    said(Some(Phase::Saving), &message, shutdown(style))
}

#[test]
fn the_style_says_which_dialogs_may_be(rt: HostRuntime) {
    assert!(rt; is_saving(asks(Dialog::Error, SaveStyle::Nothing)));
    assert!(rt; is_saving(asks(Dialog::Normal, SaveStyle::Errors)));
    assert!(rt; !is_saving(asks(Dialog::Error, SaveStyle::Errors)));
    assert!(rt; !is_saving(asks(Dialog::Normal, SaveStyle::Any)));
    assert!(rt; may_interact(shutdown(SaveStyle::Errors), Dialog::Error));
    assert!(rt; !may_interact(None, Dialog::Error));
    assert!(rt; is_shutdown(shutdown(SaveStyle::Any)));
    assert!(rt; !is_shutdown(None));
}

#[test]
fn a_client_goes_through_its_phases(rt: HostRuntime) {
    assert!(rt; is_unregistered(readied(None)));
    let saving = given(Some(Phase::Idle), &save_yourself());
    assert!(rt; is_first_saving(saving));
    let asked = asks(Dialog::Error, SaveStyle::Any);
    let talking = given(asked, &XsmpMessage::Interact);
    assert!(rt; is_interacting(talking));
    let owing = given(talking, &XsmpMessage::ShutdownCancelled);
    assert!(rt; is_owing(owing));
    assert!(rt; is_dying(given(owing, &XsmpMessage::Die)));
}

#[test]
fn a_reply_is_told_apart(rt: HostRuntime) {
    let id = Octets::new(rt.alloc());
    assert!(rt; is_reply(&XsmpMessage::RegisterClientReply { id }));
    assert!(rt; !is_reply(&XsmpMessage::Die));
}
