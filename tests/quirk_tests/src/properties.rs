use client_quirks::{amended, is_amended};
use ice_values::{Array8, Array8List, Property};
use owned_lists::{NoMemory, Octets};
use std::alloc::{Alloc, Global};
use std::process::Abort;
use std::test::Fail;
use test_tables::expect_rows;

/// What a row writes of some bytes: `~` is a NUL, and `!` a byte 1.
fn read(alloc: Global, text: &str) -> Result<Array8, NoMemory> {
    let mut bytes = Vec::new(alloc);
    for byte in text.bytes() {
        bytes.push(match byte {
            b'~' => 0,
            b'!' => 1,
            other => other,
        })?;
    }
    Ok(Octets::from_vec(bytes))
}

/// Adds a blank, and some bytes as a row writes them.
fn put(bytes: &Array8, text: &mut String) -> Result<(), Fail> {
    text.push(' ')?;
    for byte in bytes.as_slice() {
        text.push(match *byte {
            0 => '~',
            1 => '!',
            other => char::from(other),
        })?;
    }
    Ok(())
}

/// The property that a row writes: its name, its kind and its values.
fn property_of(alloc: Global, input: &str) -> Result<Property, Fail> {
    let Some((name, rest)) = input.split_once(' ') else {
        return Err("a property without a kind".into());
    };
    let mut values = Array8List::new(alloc);
    let mut words = rest.split(' ');
    let Some(kind) = words.next() else {
        return Err("a property without a kind".into());
    };
    for word in words {
        values.push(read(alloc, word)?)?;
    }
    Ok(Property {
        name: read(alloc, name)?,
        kind: read(alloc, kind)?,
        values,
    })
}

/// What a property is meant to be, behind whether it is meant otherwise than it is.
fn meant_shown(alloc: Global, input: &str) -> Result<String, Fail> {
    let property = property_of(alloc, input)?;
    let meant = amended(alloc, &property)?;
    let mut text = String::new(alloc);
    text.push_str(if is_amended(&property) {
        "anew"
    } else {
        "same"
    })?;
    put(&meant.name, &mut text)?;
    put(&meant.kind, &mut text)?;
    for value in meant.values.as_slice() {
        put(value, &mut text)?;
    }
    Ok(text)
}

/// The commands of Xt and twm, the hints of Qt, and what nobody sends.
const MEANT: &str = "\
RestartCommand LISTofARRAY8 /usr/bin/xterm~ -xtsessionID~ id~ => anew RestartCommand LISTofARRAY8 /usr/bin/xterm -xtsessionID id
RestartCommand LISTofARRAY8 /usr/bin/xterm -e => same RestartCommand LISTofARRAY8 /usr/bin/xterm -e
RestartCommand LISTofARRAY8 a~~ b~c d~ => anew RestartCommand LISTofARRAY8 a~~ b~c d
DiscardCommand LISTofARRAY8 rm~ f => anew DiscardCommand LISTofARRAY8 rm f
ResignCommand LISTofARRAY8 x~ => anew ResignCommand LISTofARRAY8 x
ShutdownCommand LISTofARRAY8 x~ => anew ShutdownCommand LISTofARRAY8 x
CloneCommand LISTofARRAY8 /usr/bin/xterm~ => same CloneCommand LISTofARRAY8 /usr/bin/xterm~
Environment LISTofARRAY8 A~ b~ => same Environment LISTofARRAY8 A~ b~
Program ARRAY8 xterm~ => anew Program ARRAY8 xterm
CurrentDirectory ARRAY8 /data/ann~ => anew CurrentDirectory ARRAY8 /data/ann
UserID ARRAY8 ann~ => anew UserID ARRAY8 ann
ProcessID ARRAY8 12~ => same ProcessID ARRAY8 12~
DiscardCommand ARRAY8 rm_-f_/data/ann/.twm1 => anew DiscardCommand LISTofARRAY8 /bin/sh -c rm_-f_/data/ann/.twm1
RestartCommand ARRAY8 twm~ => anew RestartCommand LISTofARRAY8 /bin/sh -c twm
RestartCommand ARRAY8 twm -f => same RestartCommand ARRAY8 twm -f
CloneCommand ARRAY8 twm => same CloneCommand ARRAY8 twm
RestartStyleHint CARD8 ~~~~ => anew RestartStyleHint CARD8 ~
RestartStyleHint CARD8 !~~~ => anew RestartStyleHint CARD8 !
RestartStyleHint CARD8 ~~~! => anew RestartStyleHint CARD8 !
RestartStyleHint CARD8 !~~! => same RestartStyleHint CARD8 !~~!
RestartStyleHint CARD8 ~!~~ => same RestartStyleHint CARD8 ~!~~
RestartStyleHint CARD8 ! => same RestartStyleHint CARD8 !
RestartStyleHint CARD8 !~~ => same RestartStyleHint CARD8 !~~
_XC_RestartStyleHint CARD8 !~~~ => same _XC_RestartStyleHint CARD8 !~~~";

#[test]
fn properties_are_as_they_are_meant(rt: HostRuntime) -> Result<(), Fail> {
    expect_rows(&rt, MEANT, meant_shown)
}
