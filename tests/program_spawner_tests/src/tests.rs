use owned_lists::{Command, NoMemory, Octets, OctetsList, PairList};
use program_spawner::{ProgramSpawner, Readable};
use sm_world::Spawner;
use std::alloc::Global;
use std::path::Path;
use std::test::Fail;
use std::time::Duration;
use std::{env, fs, process, thread};

fn octets(alloc: Global, text: &str) -> Result<Octets, NoMemory> {
    Octets::from_slice(alloc, text.as_bytes())
}

/// A command of these words, in the root folder, with `A` set to `own` and `ICEAUTHORITY` to `other`.
fn command(alloc: Global, words: &[&str]) -> Result<Command, NoMemory> {
    command_in(alloc, words, "/")
}

/// The same, in this folder.
fn command_in(alloc: Global, words: &[&str], folder: &str) -> Result<Command, NoMemory> {
    let mut list = OctetsList::new(alloc);
    for word in words {
        list.push(octets(alloc, word)?)?;
    }
    let mut environment = PairList::new(alloc);
    environment.push((octets(alloc, "A")?, octets(alloc, "own")?))?;
    environment.push((octets(alloc, "ICEAUTHORITY")?, octets(alloc, "other")?))?;
    Ok(Command {
        words: list,
        directory: octets(alloc, folder)?,
        environment,
    })
}

fn start(alloc: Global, spawner: &mut ProgramSpawner, words: &[&str]) -> Option<bool> {
    let command = command(alloc, words).ok()?;
    spawner.start(&command).ok()
}

/// Waits some seconds for the programs to end.
fn wait_for_all(rt: HostRuntime, spawner: &mut ProgramSpawner) {
    for _ in 0..500 {
        spawner.reap();
        if spawner.running() == 0 {
            return;
        }
        thread::sleep(&rt, Duration::from_millis(20));
    }
}

#[test]
fn a_program_is_started_with_its_surroundings(rt: HostRuntime) -> Result<(), Fail> {
    let alloc = rt.alloc();
    let id = process::id(rt.process());
    let folder = env::temp_dir(&rt)?;
    let path = format!(in alloc; "{}/said-{id}", folder.as_path().as_str())?;
    let script = format!(in alloc;
        "echo $A $SESSION_MANAGER $ICEAUTHORITY $PWD $1 >{path}; read line"
    )?;
    let mut spawner = ProgramSpawner::new(rt);
    spawner.set_session_manager("local/h:/s".to_string(alloc)?);
    spawner.set_authority("/a".to_string(alloc)?);
    let words = ["sh", "-c", script.as_str(), "sh", "x"];
    assert_eq!(rt; start(alloc, &mut spawner, &words), Some(true));
    wait_for_all(rt, &mut spawner);
    assert_eq!(rt; spawner.running(), 0);
    let said = fs::read_to_string(&rt, path.as_str());
    let _ = fs::remove_file(&rt, path.as_str());
    assert_eq!(rt; said?.as_str(), "own local/h:/s /a / x\n");
    Ok(())
}

/// Where a program finds itself whose folder is this one.
fn place_from(rt: HostRuntime, folder: &str) -> Result<String, Fail> {
    let alloc = rt.alloc();
    let id = process::id(rt.process());
    let temporary = env::temp_dir(&rt)?;
    let path = format!(in alloc; "{}/place-{id}", temporary.as_path().as_str())?;
    let script = format!(in alloc; "pwd -P >{path}")?;
    let mut spawner = ProgramSpawner::new(rt);
    let command = command_in(alloc, &["sh", "-c", script.as_str()], folder)?;
    if !spawner.start(&command)? {
        return Ok("it isn't started".to_string(alloc)?);
    }
    wait_for_all(rt, &mut spawner);
    let place = fs::read_to_string(&rt, path.as_str());
    let _ = fs::remove_file(&rt, path.as_str());
    Ok(place?)
}

#[test]
fn a_program_without_its_folder_starts_at_home(rt: HostRuntime) -> Result<(), Fail> {
    assert_eq!(rt; place_from(rt, "/proc")?.as_str(), "/proc\n");
    let Ok(home) = env::var(&rt, "HOME") else {
        return Ok(());
    };
    let home = Path::new(home.as_str()).canonicalize(&rt)?;
    let wanted = format!(in rt.alloc(); "{}\n", home.as_str())?;
    assert_eq!(rt;
        place_from(rt, "/no/such/folder")?.as_str(),
        wanted.as_str()
    );
    assert_eq!(rt; place_from(rt, "/etc/passwd")?.as_str(), wanted.as_str());
    Ok(())
}

#[test]
fn a_program_is_named_as_people_read_it(rt: HostRuntime) -> Result<(), Fail> {
    let alloc = rt.alloc();
    let named = command(alloc, &["\u{202e}exe\n", "word"])?;
    let name = Readable::program_of(alloc, &named);
    assert_eq!(rt; name.as_str(), "\"\\xe2\\x80\\xaeexe\\x0a\"");
    assert_eq!(rt;
        Readable::program_of(alloc, &command(alloc, &[])?).as_str(),
        "?"
    );
    assert_eq!(rt; Readable::word(alloc, b"xterm").as_str(), "xterm");
    Ok(())
}

#[test]
fn what_cannot_be_started_is_false(rt: HostRuntime) -> Result<(), Fail> {
    let alloc = rt.alloc();
    let mut spawner = ProgramSpawner::new(rt);
    assert_eq!(rt;
        start(alloc, &mut spawner, &["no such program"]),
        Some(false)
    );
    assert_eq!(rt; start(alloc, &mut spawner, &["/"]), Some(false));
    let later = command(alloc, &["no such program"]).and_then(|it| spawner.start_later(&it));
    assert_eq!(rt; later, Ok(false));
    assert_eq!(rt; start(alloc, &mut spawner, &[]), Some(false));
    Ok(())
}
