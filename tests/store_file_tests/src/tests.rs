use sm_world::{Disk, Failed, Failure};
use std::os::unix::fs::{PermissionsExt, symlink};
use std::process::{Child, Command, Stdio};
use std::test::Fail;
use std::time::Duration;
use std::{env, fs, io, process, thread};
use store_file::FileDisk;

/// Larger than what is written at once, and no multiple of it.
const SIZE: u64 = 100_000;

fn path_of(rt: HostRuntime, name: &str) -> Result<String, Fail> {
    let folder = env::temp_dir(&rt)?;
    let id = process::id(rt.process());
    Ok(format!(in rt.alloc(); "{}/{name}-{id}", folder.as_path().as_str())?)
}

fn mode_of(rt: HostRuntime, path: &str) -> Result<u32, Fail> {
    Ok(fs::metadata(&rt, path)?.permissions().mode() & 0o777)
}

fn remove_lock(rt: HostRuntime, path: &str) -> Result<(), Fail> {
    let lock = format!(in rt.alloc(); "{path}.lock")?;
    fs::remove_file(&rt, lock.as_str())?;
    Ok(())
}

fn remove_published(rt: HostRuntime, path: &str) -> Result<(), Fail> {
    fs::remove_file(&rt, path)?;
    remove_lock(rt, path)
}

/// Writes three bytes at 5, and gives the three at 4.
fn write_and_read(disk: &mut FileDisk) -> Result<[u8; 3], Failure> {
    if disk.size()? < 8 {
        return Err(Failure::Failed);
    }
    disk.write_at(5, b"abc")?;
    disk.sync()?;
    let mut bytes = [9u8; 3];
    disk.read_at(4, &mut bytes)?;
    Ok(bytes)
}

#[test]
fn a_store_is_made_and_kept(rt: HostRuntime) -> Result<(), Fail> {
    let path = path_of(rt, "store")?;
    let mut disk = FileDisk::new(rt, SIZE);
    assert_eq!(rt; disk.attach(path.as_str()), Ok(()));
    assert_eq!(rt; disk.size(), Ok(SIZE));
    assert_eq!(rt; mode_of(rt, path.as_str())?, 0o600);
    let bytes = fs::read(&rt, path.as_str())?;
    assert!(rt; bytes.len() == 100_000 && bytes.iter().all(|byte| *byte == 0));
    // A store that is taken, here or by another process, isn't given to a second.
    let mut second = FileDisk::new(rt, SIZE);
    assert_eq!(rt; second.attach(path.as_str()), Err(Failure::Failed));
    drop(disk);
    let mut disk = FileDisk::new(rt, 5);
    assert_eq!(rt; disk.attach(path.as_str()), Ok(()));
    assert_eq!(rt; disk.size(), Ok(SIZE));
    fs::remove_file(&rt, path.as_str())?;
    Ok(())
}

#[test]
fn a_store_that_was_taken_stays_taken(rt: HostRuntime) -> Result<(), Fail> {
    let path = path_of(rt, "again")?;
    let mut disk = FileDisk::new(rt, 8);
    assert_eq!(rt; disk.attach(path.as_str()), Ok(()));
    assert_eq!(rt; write_and_read(&mut disk), Ok([0, b'a', b'b']));
    assert_eq!(rt; disk.attach(path.as_str()), Ok(()));
    assert_eq!(rt;
        disk.contents(path.as_str())?.as_slice(),
        b"\0\0\0\0\0abc".as_slice()
    );
    fs::remove_file(&rt, path.as_str())?;
    Ok(())
}

#[test]
fn bytes_stand_where_they_were_written(rt: HostRuntime) -> Result<(), Fail> {
    let path = path_of(rt, "bytes")?;
    let mut disk = FileDisk::new(rt, 8);
    assert_eq!(rt; disk.attach(path.as_str()), Ok(()));
    assert_eq!(rt; write_and_read(&mut disk), Ok([0, b'a', b'b']));
    assert_eq!(rt;
        fs::read(&rt, path.as_str())?.as_slice(),
        b"\0\0\0\0\0abc".as_slice()
    );
    fs::remove_file(&rt, path.as_str())?;
    Ok(())
}

#[test]
fn a_small_file_is_replaced(rt: HostRuntime) -> Result<(), Fail> {
    let path = path_of(rt, "small")?;
    let mut disk = FileDisk::new(rt, SIZE);
    for text in ["first", "second"] {
        assert_eq!(rt; disk.publish(path.as_str(), text.as_bytes()), Ok(()));
        assert_eq!(rt; fs::read_to_string(&rt, path.as_str())?.as_str(), text);
        assert_eq!(rt; mode_of(rt, path.as_str())?, 0o600);
    }
    remove_published(rt, path.as_str())
}

#[test]
fn a_small_file_of_another_stays(rt: HostRuntime) -> Result<(), Fail> {
    let path = path_of(rt, "held")?;
    let mut first = FileDisk::new(rt, SIZE);
    assert_eq!(rt; first.publish(path.as_str(), b"first"), Ok(()));
    let mut second = FileDisk::new(rt, SIZE);
    assert_eq!(rt;
        second.publish(path.as_str(), b"second"),
        Err(Failure::Failed)
    );
    assert_eq!(rt; fs::read_to_string(&rt, path.as_str())?.as_str(), "first");
    drop(first);
    assert_eq!(rt; second.publish(path.as_str(), b"second"), Ok(()));
    assert_eq!(rt; fs::read_to_string(&rt, path.as_str())?.as_str(), "second");
    remove_published(rt, path.as_str())
}

#[test]
fn what_is_no_file_is_refused(rt: HostRuntime) -> Result<(), Fail> {
    let folder = path_of(rt, "folder")?;
    let mut disk = FileDisk::new(rt, SIZE);
    fs::create_dir(&rt, folder.as_str())?;
    assert_eq!(rt; disk.attach(folder.as_str()), Err(Failure::Failed));
    assert_eq!(rt; disk.publish(folder.as_str(), b"x"), Err(Failure::Failed));
    fs::remove_dir(&rt, folder.as_str())?;
    remove_lock(rt, folder.as_str())?;
    let missing = format!(in rt.alloc(); "{folder}/store")?;
    assert_eq!(rt; disk.attach(missing.as_str()), Err(Failure::Failed));
    assert_eq!(rt; disk.publish(missing.as_str(), b"x"), Err(Failure::Failed));
    Ok(())
}

/// The variable that tells a started test which store it is to hold.
const HELD: &str = "STORE_FILE_HELD";

/// No test by itself: another starts it, so that it holds a store for a second.
#[test]
fn as_holder(rt: HostRuntime) -> Result<(), Fail> {
    let Ok(path) = env::var(&rt, HELD) else {
        return Ok(());
    };
    let mut disk = FileDisk::new(rt, SIZE);
    assert_eq!(rt; disk.attach(path.as_str()), Ok(()));
    fs::write(&rt, format!(in rt.alloc(); "{path}-held")?.as_str(), "x")?;
    thread::sleep(&rt, Duration::from_secs(1));
    Ok(())
}

/// Starts this program, and waits until it holds the store.
fn holder(rt: HostRuntime, path: &str) -> io::Result<Child> {
    let mut command = Command::new(rt.alloc(), env::current_exe(&rt)?.as_str())?;
    command.arg("store_file_tests::tests::as_holder")?;
    command.env(HELD, path)?;
    command.stdout(Stdio::null());
    let child = command.spawn(&rt)?;
    let held = format!(in rt.alloc(); "{path}-held")?;
    for _ in 0..500 {
        if fs::exists(&rt, held.as_str())? {
            break;
        }
        thread::sleep(&rt, Duration::from_millis(20));
    }
    fs::remove_file(&rt, held.as_str())?;
    Ok(child)
}

#[test]
fn a_store_that_is_let_go_is_taken(rt: HostRuntime) -> Result<(), Fail> {
    let path = path_of(rt, "held")?;
    let mut child = holder(rt, path.as_str())?;
    let mut disk = FileDisk::new(rt, SIZE);
    let attached = disk.attach(path.as_str());
    let _ = fs::remove_file(&rt, path.as_str());
    assert_eq!(rt; attached, Ok(()));
    assert!(rt; child.wait()?.success());
    Ok(())
}

#[test]
fn a_store_that_others_may_use_is_refused(rt: HostRuntime) -> Result<(), Fail> {
    let path = path_of(rt, "open")?;
    let path = path.as_str();
    fs::write(&rt, path, "12345")?;
    fs::set_permissions(&rt, path, fs::Permissions::from_mode(0o640))?;
    assert_eq!(rt; FileDisk::new(rt, 5).attach(path), Err(Failure::Failed));
    // What has another size is no store, and its size is told.
    assert_eq!(rt; FileDisk::new(rt, 6).attach(path), Ok(()));
    fs::set_permissions(&rt, path, fs::Permissions::from_mode(0o600))?;
    assert_eq!(rt; FileDisk::new(rt, 5).attach(path), Ok(()));
    fs::remove_file(&rt, path)?;
    Ok(())
}

#[test]
fn a_link_is_no_store(rt: HostRuntime) -> Result<(), Fail> {
    let (path, link) = (path_of(rt, "linked")?, path_of(rt, "link")?);
    symlink(&rt, path.as_str(), link.as_str())?;
    // Nothing stands at the other end, and nothing is made there.
    let dangling = FileDisk::new(rt, 5).attach(link.as_str());
    assert_eq!(rt; dangling, Err(Failure::Failed));
    assert_eq!(rt; fs::exists(&rt, path.as_str())?, false);
    assert_eq!(rt; FileDisk::new(rt, 5).attach(path.as_str()), Ok(()));
    let linked = FileDisk::new(rt, 5).attach(link.as_str());
    assert_eq!(rt; linked, Err(Failure::Failed));
    fs::remove_file(&rt, link.as_str())?;
    fs::remove_file(&rt, path.as_str())?;
    Ok(())
}

#[test]
fn a_lost_store_is_lost_for_good(rt: HostRuntime) -> Result<(), Fail> {
    let path = path_of(rt, "lost")?;
    let mut disk = FileDisk::new(rt, 8);
    assert_eq!(rt; disk.sync(), Err(Failed));
    assert_eq!(rt; disk.attach(path.as_str()), Err(Failure::Failed));
    assert_eq!(rt; fs::exists(&rt, path.as_str())?, false);
    assert_eq!(rt; disk.sync(), Err(Failed));
    Ok(())
}
