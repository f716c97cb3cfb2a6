//! Real files and programs, in the folder for temporary files.

use owned_lists::{Command, Octets, OctetsList, PairList};
use sm_world::{Console, Failure, Spawner};
use state_saver::{FILE_LIMIT, Files};
use std::os::unix::fs::PermissionsExt;
use std::test::Fail;
use std::{env, fs, process};
use wrapped_files::WrappedFiles;

fn path_of(rt: HostRuntime, name: &str) -> Result<String, Fail> {
    let folder = env::temp_dir(&rt)?;
    let id = process::id(rt.process());
    Ok(format!(in rt.alloc(); "{}/{name}-{id}", folder.as_path().as_str())?)
}

fn mode_of(rt: HostRuntime, path: &str) -> Result<u32, Fail> {
    Ok(fs::metadata(&rt, path)?.permissions().mode() & 0o777)
}

#[test]
fn a_copy_has_the_bytes_and_the_mode(rt: HostRuntime) -> Result<(), Fail> {
    let path = path_of(rt, "state")?;
    let copy = path_of(rt, "copy")?;
    fs::write(&rt, path.as_str(), b"kept")?;
    fs::set_permissions(&rt, path.as_str(), fs::Permissions::from_mode(0o666))?;
    let mut files = WrappedFiles::new(rt);
    let bytes = files.fetch(path.as_str())?;
    assert_eq!(rt; files.publish(copy.as_str(), bytes.as_slice()), Ok(()));
    assert_eq!(rt; fs::read_to_string(&rt, copy.as_str())?.as_str(), "kept");
    assert_eq!(rt; mode_of(rt, copy.as_str())?, 0o666);
    fs::remove_file(&rt, path.as_str())?;
    fs::remove_file(&rt, copy.as_str())?;
    Ok(())
}

#[test]
fn a_long_file_is_a_fault(rt: HostRuntime) -> Result<(), Fail> {
    let path = path_of(rt, "long")?;
    let bytes = vec![in rt.alloc(); b'x'; FILE_LIMIT + 1]?;
    fs::write(&rt, path.as_str(), bytes.as_slice())?;
    let mut files = WrappedFiles::new(rt);
    assert_eq!(rt; files.fetch(path.as_str()).err(), Some(Failure::Failed));
    fs::write(&rt, path.as_str(), &bytes[1..])?;
    assert_eq!(rt; files.fetch(path.as_str())?.len(), FILE_LIMIT);
    fs::remove_file(&rt, path.as_str())?;
    assert_eq!(rt; files.fetch(path.as_str()).err(), Some(Failure::Failed));
    Ok(())
}

/// Starts a program of this name.
fn start(rt: HostRuntime, name: &str) -> Result<bool, Fail> {
    let alloc = rt.alloc();
    let mut words = OctetsList::new(alloc);
    words.push(Octets::from_slice(alloc, name.as_bytes())?)?;
    let command = Command {
        words,
        directory: Octets::new(alloc),
        environment: PairList::new(alloc),
    };
    let mut files = WrappedFiles::new(rt);
    Ok(files.start(&command)?)
}

#[test]
fn a_program_is_started_or_not(rt: HostRuntime) -> Result<(), Fail> {
    assert_eq!(rt; start(rt, "true")?, true);
    assert_eq!(rt; start(rt, "/no/such/program")?, false);
    let mut files = WrappedFiles::new(rt);
    assert_eq!(rt; files.print(b""), Ok(()));
    assert_eq!(rt; files.read(&mut []), Ok(0));
    Ok(())
}
