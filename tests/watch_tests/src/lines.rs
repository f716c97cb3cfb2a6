use owned_lists::Octets;
use session_watch::{ClientWatch, put_client, put_count};
use std::alloc::{Alloc, Global};
use std::process::Abort;
use std::test::Fail;
use test_tables::expect_rows;

/// Frames by their names, in the order of the least significant byte first. The client speaks XSMP
/// under the major opcode 1, and the manager under 2.
const FRAMES: &str = "\
greeting 0001000000000000
setup 00070100040000000100000000000000040058534d50000000000000000000000100000000000000
opening 00080002010000000000000000000000
register 01010000010000000000000000000000
id 020200000100000003000000612d6200
strange-id 02020000010000000400000061205cff
hyphen-id 0202000001000000010000002d000000
program 010c00000700000001000000000000000700000050726f6772616d00000000000600000041525241593800000000000001000000000000000300000074776d00
ended-program 010c00000700000001000000000000000700000050726f6772616d00000000000600000041525241593800000000000001000000000000000400000074776d00
parted-program 010c00000700000001000000000000000700000050726f6772616d00000000000600000041525241593800000000000001000000000000000300000061006200
twice-ended-program 010c00000700000001000000000000000700000050726f6772616d00000000000600000041525241593800000000000001000000000000000400000074770000
two-programs 010c00000d00000002000000000000000700000050726f6772616d00000000000600000041525241593800000000000001000000000000000300000074776d000700000050726f6772616d00000000000600000041525241593800000000000001000000000000000300000061626300
empty-program 010c00000600000001000000000000000700000050726f6772616d0000000000060000004152524159380000000000000000000000000000
no-program 010d00000300000001000000000000000700000050726f6772616d0000000000
bad-properties 010c0000010000000900000000000000
save 02030000010000000001020000000000
checkpoint 02030000010000000100000100000000
foreign-save 01030000010000000001020000000000
bad-save 02030000010000000301020000000000
interact-request 0105000000000000
interact 0206000000000000
interact-done 0107000000000000
phase2-request 0110000000000000
phase2 0211000000000000
done 0108010000000000
failed 0108000000000000
complete 0212000000000000
cancelled 020a000000000000
die 0209000000000000
closed 010b0000010000000000000000000000
too-much 010c0000ffffffff
half-save 02030000
other-half 010000000001020000000000";

/// The bytes of the frame that has this name.
fn frame_of(alloc: Global, name: &str) -> Result<Vec<u8>, Fail> {
    for line in FRAMES.lines() {
        if let Some((known, digits)) = line.split_once(' ') {
            if known == name {
                return Ok(hex::decode(alloc, digits)?);
            }
        }
    }
    Err("a frame without a name".into())
}

/// What one turn does, at this time: `c` is a frame of the client's, and `m` one of the manager's. Both
/// greet, the client asks for XSMP and the manager opens it, where a turn is `xsmp`.
fn take_turn(alloc: Global, watch: &mut ClientWatch, turn: &str, now: u64) -> Result<(), Fail> {
    match turn.split_once(':') {
        Some(("c", name)) => watch.hear(now, frame_of(alloc, name)?.as_slice())?,
        Some((_, name)) => watch.tell(now, frame_of(alloc, name)?.as_slice())?,
        None => {
            watch.hear(now, frame_of(alloc, "greeting")?.as_slice())?;
            watch.tell(now, frame_of(alloc, "greeting")?.as_slice())?;
            watch.hear(now, frame_of(alloc, "setup")?.as_slice())?;
            watch.tell(now, frame_of(alloc, "opening")?.as_slice())?;
        }
    }
    Ok(())
}

/// The line of a client on whose connection these turns came, ten milliseconds one after another, and who
/// was answered for where that is among them.
fn line_of(alloc: Global, turns: &str) -> Result<String, Fail> {
    let mut watch = ClientWatch::new(alloc, 0);
    let mut now = 0u64;
    let mut excused = false;
    for turn in turns.split(' ') {
        now = now.saturating_add(10);
        if turn == "excused" {
            excused = true;
        } else {
            take_turn(alloc, &mut watch, turn, now)?;
        }
    }
    let mut line = Octets::new(alloc);
    put_client(alloc, &mut line, 3, now, excused, &watch)?;
    Ok(
        str::from_utf8(line.as_slice())?
            .trim_end()
            .to_string(alloc)?,
    )
}

const SAVES: &str = "\
xsmp => conn=3 holds=no stage=joining logout=no silent=0 asked=none answered=none id=- program=-
xsmp c:register => conn=3 holds=no stage=joining logout=no silent=0 asked=none answered=register-client id=- program=-
xsmp c:register m:id => conn=3 holds=no stage=idle logout=no silent=10 asked=none answered=register-client id=a-b program=-
xsmp c:register m:id m:save => conn=3 holds=yes stage=saving logout=yes silent=20 asked=save-yourself-global-logout-any answered=none id=a-b program=-
xsmp c:register m:id m:checkpoint => conn=3 holds=yes stage=saving logout=no silent=20 asked=save-yourself-local-checkpoint-none-fast answered=none id=a-b program=-
xsmp c:register m:id m:save c:interact-request => conn=3 holds=yes stage=saving logout=yes silent=0 asked=save-yourself-global-logout-any answered=interact-request id=a-b program=-
xsmp c:register m:id m:save c:interact-request m:interact => conn=3 holds=yes stage=interacting logout=yes silent=10 asked=interact answered=none id=a-b program=-
xsmp c:register m:id m:save c:interact-request m:interact c:interact-done => conn=3 holds=yes stage=saving logout=yes silent=0 asked=interact answered=interact-done id=a-b program=-
xsmp c:register m:id m:save c:interact-request m:interact c:interact-done c:done => conn=3 holds=no stage=done logout=yes silent=0 asked=interact answered=save-yourself-done id=a-b program=-
xsmp c:register m:id m:save c:phase2-request => conn=3 holds=no stage=waiting logout=yes silent=0 asked=save-yourself-global-logout-any answered=save-yourself-phase2-request id=a-b program=-
xsmp c:register m:id m:save c:phase2-request m:phase2 => conn=3 holds=yes stage=saving logout=yes silent=10 asked=save-yourself-phase2 answered=none id=a-b program=-
xsmp c:register m:id m:save c:phase2-request m:phase2 c:failed => conn=3 holds=no stage=done logout=yes silent=0 asked=save-yourself-phase2 answered=save-yourself-failed id=a-b program=-
xsmp c:register m:id m:save c:phase2-request m:cancelled => conn=3 holds=yes stage=saving logout=no silent=10 asked=shutdown-cancelled answered=none id=a-b program=-
xsmp c:register m:id m:save c:phase2-request m:cancelled excused => conn=3 holds=no stage=idle logout=no silent=20 asked=shutdown-cancelled answered=none id=a-b program=-
xsmp c:register m:id m:save c:interact-request m:interact m:cancelled excused => conn=3 holds=no stage=idle logout=no silent=30 asked=shutdown-cancelled answered=none id=a-b program=-
xsmp m:die excused => conn=3 holds=yes stage=dying logout=yes silent=20 asked=die answered=none id=- program=-
xsmp c:register m:id m:save m:cancelled => conn=3 holds=yes stage=saving logout=no silent=30 asked=shutdown-cancelled answered=none id=a-b program=-
xsmp c:register m:id m:save m:cancelled c:done => conn=3 holds=no stage=idle logout=no silent=0 asked=shutdown-cancelled answered=save-yourself-done id=a-b program=-
xsmp c:register m:id m:save c:done m:cancelled => conn=3 holds=no stage=idle logout=no silent=10 asked=shutdown-cancelled answered=none id=a-b program=-
xsmp c:register m:id m:checkpoint c:done m:complete => conn=3 holds=no stage=idle logout=no silent=10 asked=save-complete answered=none id=a-b program=-
xsmp c:register m:id m:save c:done m:die => conn=3 holds=yes stage=dying logout=yes silent=10 asked=die answered=none id=a-b program=-
xsmp c:register m:id m:save c:done m:die c:closed => conn=3 holds=yes stage=dying logout=yes silent=0 asked=die answered=connection-closed id=a-b program=-";

const NAMES: &str = "\
xsmp c:program => conn=3 holds=no stage=joining logout=no silent=0 asked=none answered=none id=- program=twm
xsmp c:program c:no-program => conn=3 holds=no stage=joining logout=no silent=0 asked=none answered=none id=- program=-
xsmp c:program c:no-program c:program => conn=3 holds=no stage=joining logout=no silent=0 asked=none answered=none id=- program=twm
xsmp c:program c:two-programs => conn=3 holds=no stage=joining logout=no silent=0 asked=none answered=none id=- program=abc
xsmp c:ended-program => conn=3 holds=no stage=joining logout=no silent=0 asked=none answered=none id=- program=twm
xsmp c:parted-program => conn=3 holds=no stage=joining logout=no silent=0 asked=none answered=none id=- program=a\\x00b
xsmp c:twice-ended-program => conn=3 holds=no stage=joining logout=no silent=0 asked=none answered=none id=- program=tw\\x00\\x00
xsmp c:program c:empty-program => conn=3 holds=no stage=joining logout=no silent=0 asked=none answered=none id=- program=-
xsmp m:strange-id => conn=3 holds=no stage=idle logout=no silent=10 asked=none answered=none id=a\\x20\\x5c\\xff program=-
xsmp m:hyphen-id => conn=3 holds=no stage=idle logout=no silent=10 asked=none answered=none id=\\x2d program=-
xsmp m:hyphen-id m:id => conn=3 holds=no stage=idle logout=no silent=20 asked=none answered=none id=a-b program=-";

const STREAMS: &str = "\
c:program => conn=3 holds=no stage=unreadable logout=no silent=0 asked=none answered=none id=- program=-
c:greeting => conn=3 holds=no stage=joining logout=no silent=0 asked=none answered=none id=- program=-
c:greeting c:program => conn=3 holds=no stage=joining logout=no silent=0 asked=none answered=none id=- program=-
xsmp c:program c:bad-properties => conn=3 holds=no stage=unreadable logout=no silent=0 asked=none answered=none id=- program=twm
xsmp c:program c:too-much => conn=3 holds=no stage=unreadable logout=no silent=0 asked=none answered=none id=- program=twm
xsmp m:id m:foreign-save => conn=3 holds=no stage=idle logout=no silent=20 asked=none answered=none id=a-b program=-
xsmp m:id c:foreign-save => conn=3 holds=no stage=idle logout=no silent=0 asked=none answered=none id=a-b program=-
xsmp m:id m:bad-save => conn=3 holds=no stage=idle logout=no silent=20 asked=none answered=none id=a-b program=-
xsmp m:id m:half-save => conn=3 holds=no stage=idle logout=no silent=20 asked=none answered=none id=a-b program=-
xsmp m:id m:half-save m:other-half => conn=3 holds=yes stage=saving logout=yes silent=30 asked=save-yourself-global-logout-any answered=none id=a-b program=-
xsmp m:die c:die => conn=3 holds=yes stage=dying logout=yes silent=0 asked=die answered=none id=- program=-";

#[test]
fn saves_are_followed(rt: HostRuntime) -> Result<(), Fail> {
    expect_rows(&rt, SAVES, line_of)
}

#[test]
fn clients_are_named(rt: HostRuntime) -> Result<(), Fail> {
    expect_rows(&rt, NAMES, line_of)
}

#[test]
fn streams_are_understood(rt: HostRuntime) -> Result<(), Fail> {
    expect_rows(&rt, STREAMS, line_of)
}

#[test]
fn clients_are_counted(rt: HostRuntime) -> Result<(), Fail> {
    let mut line = Octets::new(rt.alloc());
    put_count(rt.alloc(), &mut line, 12)?;
    assert_eq!(rt; line.as_slice(), b"clients 12\n".as_slice());
    Ok(())
}
