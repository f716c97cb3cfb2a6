use owned_lists::{Octets, OctetsList};
use shown_text::{is_whole, put_word, put_words, shown_word};
use std::alloc::{Alloc, Global};
use std::process::Abort;
use std::test::Fail;
use test_tables::expect_rows;

/// A word by its bytes in hex, as it is shown.
fn shown(alloc: Global, input: &str) -> Result<String, Fail> {
    let Ok(bytes) = hex::decode(alloc, input.as_bytes()) else {
        return Ok("no hex".to_string(alloc)?);
    };
    let text = shown_word(alloc, bytes.as_slice())?;
    Ok(str::from_utf8(text.as_slice())?.to_string(alloc)?)
}

/// Words of ASCII; UTF-8 with and without what is hidden (a control character, a blank without a break, a
/// soft hyphen, an Arabic letter and its mark of direction, a mark that overrides the direction, an
/// isolate, a joiner of no width, a byte order mark, a tag); and bytes that are no UTF-8.
const ROWS: &str = "\
61 => a
612062 => \"a b\"
6122 => \"a\\x22\"
615c => \"a\\x5c\"
1b5b324a => \"\\x1b[2J\"
610a => \"a\\x0a\"
7f => \"\\x7f\"
c3bc => ü
c2a9 => ©
c29b => \"\\xc2\\x9b\"
c2a0 => \"\\xc2\\xa0\"
c2ad => \"\\xc2\\xad\"
d8a7 => ا
d89c => \"\\xd8\\x9c\"
e28098 => ‘
e280ae61 => \"\\xe2\\x80\\xaea\"
e281a6 => \"\\xe2\\x81\\xa6\"
e2808d => \"\\xe2\\x80\\x8d\"
e280a8 => \"\\xe2\\x80\\xa8\"
efbbbf => \"\\xef\\xbb\\xbf\"
f3a08181 => \"\\xf3\\xa0\\x81\\x81\"
f09f9880 => 😀
ff => \"\\xff\"
c3bcff => \"\\xc3\\xbc\\xff\"";

#[test]
fn words_are_shown(rt: HostRuntime) -> Result<(), Fail> {
    expect_rows(&rt, ROWS, shown)
}

#[test]
fn an_empty_word_is_seen(rt: HostRuntime) -> Result<(), Fail> {
    let alloc = rt.alloc();
    assert!(rt; is_whole(b""));
    let mut words = OctetsList::new(alloc);
    words.push(Octets::new(alloc))?;
    words.push(Octets::from_slice(alloc, b"a")?)?;
    let mut text = Octets::from_slice(alloc, b"words")?;
    put_words(alloc, &mut text, words.as_slice())?;
    put_word(alloc, &mut text, b"!")?;
    assert_eq!(rt; text.as_slice(), b"words \"\" a!".as_slice());
    Ok(())
}
