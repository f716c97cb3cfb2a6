use smctl_app::{ControlConnection, Talk};
use std::io::{BufRead, BufReader, Write};
use std::os::unix::net::UnixListener;
use std::test::Fail;
use std::{env, fs, process};

#[test]
fn the_line_of_the_answer_is_read(rt: HostRuntime) -> Result<(), Fail> {
    let folder = env::temp_dir(&rt)?;
    let id = process::id(rt.process());
    let path = format!(in rt.alloc(); "{}/smctl-{id}", folder.as_path().as_str())?;
    let listener = UnixListener::bind(&rt, path.as_str())?;
    let mut asking = ControlConnection::open(rt, path.as_str())?;
    asking.say(b"status\n")?;
    let (manager, _address) = listener.accept()?;
    let mut heard = String::new(rt.alloc());
    let _count = BufReader::new(rt.alloc(), &manager)?.read_line(&mut heard)?;
    (&manager).write_all(b"idle\nand more")?;
    let answer = asking.hear()?;
    assert_eq!(rt;
        (heard.as_str(), answer.as_slice()),
        ("status\n", b"idle\n".as_slice())
    );
    let mut cut = ControlConnection::open(rt, path.as_str())?;
    cut.say(b"status\n")?;
    let (manager, _address) = listener.accept()?;
    (&manager).write_all(b"id")?;
    drop(manager);
    assert!(rt; cut.hear().is_err());
    fs::remove_file(&rt, path.as_str())?;
    Ok(())
}
