//! Each message as a frame, least significant byte first, and its line, both written down by hand.

use crate::frames::decoded as ice_decoded;
use crate::xsmp::decoded as xsmp_decoded;
use hex_rows::bytes_of;
use ice_values::Endian;
use message_text::{Writing, ice_line, xsmp_line};
use std::alloc::{Alloc, Global};
use std::process::Abort;
use std::test::Fail;
use test_tables::expect_rows;

const ICE_ROWS: &str = "\
00000380010000000502000007060000 => Error class=32771 minor=5 severity=2 sequence=1543 values=-
0001010000000000 => ByteOrder order=1
0002010206000000010000000000000003004d49540000000300312e300000000600434f4f4b494504004e4f504500000100020000000000 => ConnectionSetup must=1 vendor=4d4954 release=312e30 names=[434f4f4b4945,4e4f5045] versions=[1.2]
000200000200000000000000000000000000000000000000 => ConnectionSetup must=0 vendor=- release=- names=[] versions=[]
000302000200000003000000000000006162630000000000 => AuthenticationRequired index=2 proof=616263
00040000030000001000000000000000000102030405060708090a0b0c0d0e0f => AuthenticationReply proof=000102030405060708090a0b0c0d0e0f
00050000010000000000000000000000 => AuthenticationNextPhase proof=-
0006010002000000020061620300312e3000000000000000 => ConnectionReply index=1 vendor=6162 release=312e30
00070501050000000201000000000000040058534d500000010061000000000001004e00010000000200010000000000 => ProtocolSetup opcode=5 must=1 protocol=58534d50 vendor=61 release=- names=[4e] versions=[1.0,2.1]
0008010702000000020061620300312e3000000000000000 => ProtocolReply index=1 opcode=7 vendor=6162 release=312e30
0009000000000000 => Ping
000a000000000000 => PingReply
000b000000000000 => WantToClose
000c000000000000 => NoClose";

const XSMP_ROWS: &str = "\
010003800200000004000000090000000800000004000000 => Error class=32771 minor=4 severity=0 sequence=9 values=0800000004000000
01010000010000000000000000000000 => RegisterClient previous=-
01020000010000000300000061626300 => RegisterClientReply id=616263
01030000010000000100020100000000 => SaveYourself kind=1 shutdown=0 style=2 fast=1
01040000010000000201010001000000 => SaveYourselfRequest kind=2 shutdown=1 style=1 fast=0 global=1
0105010000000000 => InteractRequest dialog=1
0106000000000000 => Interact
0107010000000000 => InteractDone cancel=1
0108010000000000 => SaveYourselfDone success=1
0109000000000000 => Die
010a000000000000 => ShutdownCancelled
010b0000030000000200000000000000020000006e6f00000000000000000000 => ConnectionClosed reasons=[6e6f,-]
010c000006000000010000000000000001000000500000000500000043415244380000000000000001000000000000000100000003000000 => SetProperties properties=[50:4341524438:[03]]
010d0000010000000000000000000000 => DeleteProperties names=[]
010e000000000000 => GetProperties
010f000009000000020000000000000001000000410000000000000000000000000000000000000001000000420000000100000054000000020000000000000001000000780000000000000000000000 => GetPropertiesReply properties=[41:-:[],42:54:[78,-]]
0110000000000000 => SaveYourselfPhase2Request
0111000000000000 => SaveYourselfPhase2
0112000000000000 => SaveComplete";

const ICE_WORDS: &str = "\
00000380010000000502000007060000 => Error class=32771 minor=5 severity=FatalToConnection sequence=1543 values=\"\"
0001010000000000 => ByteOrder order=MSBfirst
0002010206000000010000000000000003004d49540000000300312e300000000600434f4f4b494504004e4f504500000100020000000000 => ConnectionSetup must=yes vendor=\"MIT\" release=\"1.0\" names=[\"COOKIE\",\"NOPE\"] versions=[1.2]
00030200020000000300000000000000221f5c0000000000 => AuthenticationRequired index=2 proof=\"\\\"\\x1f\\\\\"";

const XSMP_WORDS: &str = "\
01020000010000000300000061627f00 => RegisterClientReply id=\"ab\\x7f\"
01030000010000000100020100000000 => SaveYourself kind=Local shutdown=no style=Any fast=yes
01040000010000000201010001000000 => SaveYourselfRequest kind=Both shutdown=yes style=Errors fast=no global=yes
01030000010000000000000000000000 => SaveYourself kind=Global shutdown=no style=None fast=no
0105000000000000 => InteractRequest dialog=Error
0105010000000000 => InteractRequest dialog=Normal
010b0000030000000200000000000000020000006e6f00000000000000000000 => ConnectionClosed reasons=[\"no\",\"\"]
010c0000010000000000000000000000 => SetProperties";

fn ice_told(alloc: Global, digits: &str) -> Result<String, Fail> {
    let frame = bytes_of(alloc, digits)?;
    let message = ice_decoded(alloc, Endian::Lsb, frame.as_slice())??;
    let line = ice_line(alloc, Writing::Words, &message)?;
    Ok(str::from_utf8(line.as_slice())?.to_string(alloc)?)
}

fn xsmp_told(alloc: Global, digits: &str) -> Result<String, Fail> {
    let frame = bytes_of(alloc, digits)?;
    let message = xsmp_decoded(alloc, Endian::Lsb, frame.as_slice())??;
    let line = xsmp_line(alloc, Writing::Words, &message)?;
    Ok(str::from_utf8(line.as_slice())?.to_string(alloc)?)
}

fn ice_shown(alloc: Global, digits: &str) -> Result<String, Fail> {
    let frame = bytes_of(alloc, digits)?;
    let message = ice_decoded(alloc, Endian::Lsb, frame.as_slice())??;
    let line = ice_line(alloc, Writing::Codes, &message)?;
    Ok(str::from_utf8(line.as_slice())?.to_string(alloc)?)
}

fn xsmp_shown(alloc: Global, digits: &str) -> Result<String, Fail> {
    let frame = bytes_of(alloc, digits)?;
    let message = xsmp_decoded(alloc, Endian::Lsb, frame.as_slice())??;
    let line = xsmp_line(alloc, Writing::Codes, &message)?;
    Ok(str::from_utf8(line.as_slice())?.to_string(alloc)?)
}

#[test]
fn lines_of_ice(rt: HostRuntime) -> Result<(), Fail> {
    expect_rows(&rt, ICE_ROWS, ice_shown)
}

#[test]
fn lines_of_xsmp(rt: HostRuntime) -> Result<(), Fail> {
    expect_rows(&rt, XSMP_ROWS, xsmp_shown)
}

#[test]
fn lines_of_ice_for_people(rt: HostRuntime) -> Result<(), Fail> {
    expect_rows(&rt, ICE_WORDS, ice_told)
}

#[test]
fn lines_of_xsmp_for_people(rt: HostRuntime) -> Result<(), Fail> {
    expect_rows(&rt, XSMP_WORDS, xsmp_told)
}
