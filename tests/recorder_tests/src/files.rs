use record_file::RecordFile;
use session_recorder::KeptLines;
use std::alloc::Alloc;
use std::os::unix::fs::symlink;
use std::process::Abort;
use std::test::Fail;
use std::{env, fs, process};

/// Keeps two lines in a file where another lies.
fn keep_two(record: &mut RecordFile) -> bool {
    record.keep(b"one\n").is_ok() && record.keep(b"two\n").is_ok()
}

/// The path of a file of this test.
fn path_of(rt: HostRuntime, name: &str) -> Result<String, Fail> {
    let folder = env::temp_dir(&rt)?;
    Ok(format!(in rt.alloc(); "{}/{name}-{}", folder.as_str(), process::id(rt.process()))?)
}

/// The line with which an old record begins.
const FRONT: &[u8] = b"cookie 000102030405060708090A0b0c0d0e0f\n";

#[test]
fn a_file_takes_the_lines(rt: HostRuntime) -> Result<(), Fail> {
    let path = path_of(rt, "record")?;
    fs::write(&rt, path.as_str(), FRONT)?;
    let mut record = RecordFile::create(rt, path.to_string(rt.alloc())?);
    assert!(rt; keep_two(&mut record));
    record.tell_lost();
    let held = fs::read(&rt, path.as_str())?;
    assert_eq!(rt; str::from_utf8(held.as_slice())?, "one\ntwo\n");
    fs::remove_file(&rt, path.as_str())?;
    let mut nowhere = RecordFile::create(rt, "/nowhere/record".to_string(rt.alloc())?);
    assert!(rt; !keep_two(&mut nowhere));
    Ok(())
}

/// Whether a file with these bytes stays where a record would lie.
fn stays(rt: HostRuntime, path: &str, bytes: &[u8]) -> Result<bool, Fail> {
    fs::write(&rt, path, bytes)?;
    let mut record = RecordFile::create(rt, path.to_string(rt.alloc())?);
    let is_kept = keep_two(&mut record);
    record.tell_lost();
    Ok(!is_kept && fs::read(&rt, path)?.as_slice() == bytes)
}

#[test]
fn what_is_no_record_stays(rt: HostRuntime) -> Result<(), Fail> {
    let path = path_of(rt, "other")?;
    for bytes in [
        b"".as_slice(),
        b"cookie 000102030405060708090a0b0c0d0e0f".as_slice(),
        b"cookie 000102030405060708090a0b0c0d0e0g\n".as_slice(),
        b"cookie 000102030405060708090a0b0c0d0e0f00\n".as_slice(),
        b"a text that is longer than the line of a cookie\n".as_slice(),
    ] {
        assert!(rt; stays(rt, path.as_str(), bytes)?);
    }
    fs::remove_file(&rt, path.as_str())?;
    Ok(())
}

#[test]
fn what_is_no_plain_file_stays(rt: HostRuntime) -> Result<(), Fail> {
    let (path, link) = (path_of(rt, "old")?, path_of(rt, "link")?);
    fs::write(&rt, path.as_str(), FRONT)?;
    symlink(&rt, path.as_str(), link.as_str())?;
    let mut linked = RecordFile::create(rt, link.to_string(rt.alloc())?);
    assert!(rt; !keep_two(&mut linked));
    assert!(rt; fs::symlink_metadata(&rt, link.as_str())?.is_symlink());
    assert_eq!(rt; fs::read(&rt, path.as_str())?.as_slice(), FRONT);
    fs::remove_file(&rt, link.as_str())?;
    fs::remove_file(&rt, path.as_str())?;
    fs::create_dir(&rt, path.as_str())?;
    let mut folder = RecordFile::create(rt, path.to_string(rt.alloc())?);
    assert!(rt; !keep_two(&mut folder));
    fs::remove_dir(&rt, path.as_str())?;
    Ok(())
}

#[test]
fn a_record_that_is_written_stays(rt: HostRuntime) -> Result<(), Fail> {
    let path = path_of(rt, "living")?;
    let mut living = RecordFile::create(rt, path.to_string(rt.alloc())?);
    assert!(rt; living.keep(FRONT).is_ok());
    let mut second = RecordFile::create(rt, path.to_string(rt.alloc())?);
    assert!(rt; !keep_two(&mut second));
    assert!(rt; living.keep(b"one\n").is_ok());
    drop(living);
    let mut third = RecordFile::create(rt, path.to_string(rt.alloc())?);
    assert!(rt; keep_two(&mut third));
    fs::remove_file(&rt, path.as_str())?;
    Ok(())
}
