use smctl_app::{read_client_line, table_of, waited_for};
use std::alloc::{Alloc, Global};
use std::test::Fail;

const LINES: &str = "\
conn=1 holds=no stage=done logout=yes silent=12345 asked=save-yourself-both-logout-any answered=save-yourself-done id=a program=clock
conn=12 holds=yes stage=saving logout=yes silent=50 asked=save-yourself-both-logout-any answered=none id=- program=my\\x20editor
conn=13 holds=yes stage=interacting logout=yes silent=0 asked=interact answered=none id=b\\xff program=-";

const TABLE: &str =
    "   CONN  PROGRAM    STAGE        SILENT  ASKED                          ANSWERED            WAITED FOR  ID
   1     clock      done         12.3 s  save-yourself-both-logout-any  save-yourself-done              a
*  12    my editor  saving       0.0 s   save-yourself-both-logout-any  none                its save    -
*  13    -          interacting  0.0 s   interact                       none                the user    b\\xff
";

/// The table of the clients of these lines, and who is waited for.
fn shown(alloc: Global, lines: &str) -> Result<(String, String), Fail> {
    let mut clients = Vec::new(alloc);
    for line in lines.lines() {
        match read_client_line(line) {
            Some(client) => clients.push(client)?,
            None => return Err("a line that can't be read".into()),
        }
    }
    let table = table_of(alloc, clients.as_slice())?;
    let text = waited_for(alloc, clients.as_slice())?;
    Ok((table, text))
}

#[test]
fn clients_stand_in_a_table(rt: HostRuntime) -> Result<(), Fail> {
    let (table, text) = shown(rt.alloc(), LINES)?;
    assert_eq!(rt; table.as_str(), TABLE);
    assert_eq!(rt;
        text.as_str(),
        "waiting for my\\x20editor (its save), connection 13 (the user)"
    );
    Ok(())
}

#[test]
fn nobody_is_waited_for(rt: HostRuntime) -> Result<(), Fail> {
    let (_, text) = shown(rt.alloc(), "")?;
    assert_eq!(rt; text.as_str(), "waiting for the end of the session");
    Ok(())
}
