use copy_lines::{Beginning, Found, begin, copy_number, highest_copy};
use std::test::Fail;

#[test]
fn a_copy_has_a_number_behind_a_dot(rt: HostRuntime) -> Result<(), Fail> {
    let alloc = rt.alloc();
    assert_eq!(rt; copy_number(alloc, "text", "text.1")?, Some(1));
    assert_eq!(rt;
        copy_number(alloc, "text", "text.4294967295")?,
        Some(u32::MAX)
    );
    assert_eq!(rt; copy_number(alloc, "text", "text.4294967296")?, None);
    assert_eq!(rt; copy_number(alloc, "text", "text.0")?, None);
    assert_eq!(rt; copy_number(alloc, "text", "text.01")?, None);
    assert_eq!(rt; copy_number(alloc, "text", "text.")?, None);
    assert_eq!(rt; copy_number(alloc, "text", "text")?, None);
    assert_eq!(rt; copy_number(alloc, "text", "texts.1")?, None);
    assert_eq!(rt; copy_number(alloc, "text", "text.1.new-7")?, None);
    Ok(())
}

#[test]
fn the_highest_copy_is_found(rt: HostRuntime) -> Result<(), Fail> {
    let alloc = rt.alloc();
    let mut names = Vec::new(alloc);
    assert_eq!(rt; highest_copy(alloc, "text", names.as_slice())?, 0);
    for name in ["text", "text.9", "text.10", "other.11", "text.012"] {
        names.push(name.to_string(alloc)?)?;
    }
    assert_eq!(rt; highest_copy(alloc, "text", names.as_slice())?, 10);
    Ok(())
}

/// How a run begins, in words.
fn told(beginning: Beginning) -> (u8, u32) {
    match beginning {
        Beginning::AsAsked => (0, 0),
        Beginning::Behind(number) => (1, number),
        Beginning::FromFile(number) => (2, number),
        Beginning::Anew => (3, 0),
    }
}

fn found(highest: u32, has_copy: bool, has_file: bool) -> Found {
    Found {
        highest,
        has_copy,
        has_file,
    }
}

#[test]
fn a_run_begins_behind_all_copies(rt: HostRuntime) -> Result<(), Fail> {
    assert_eq!(rt; told(begin(0, found(0, false, true))), (0, 0));
    assert_eq!(rt; told(begin(3, found(3, true, true))), (0, 0));
    assert_eq!(rt; told(begin(3, found(5, true, true))), (1, 6));
    assert_eq!(rt; told(begin(0, found(5, false, true))), (2, 6));
    assert_eq!(rt; told(begin(3, found(5, false, true))), (2, 6));
    assert_eq!(rt; told(begin(3, found(2, false, true))), (2, 3));
    assert_eq!(rt; told(begin(3, found(0, false, true))), (2, 3));
    assert_eq!(rt; told(begin(3, found(0, false, false))), (3, 0));
    assert_eq!(rt; told(begin(0, found(5, false, false))), (0, 0));
    assert_eq!(rt; told(begin(3, found(u32::MAX, true, true))), (0, 0));
    Ok(())
}
