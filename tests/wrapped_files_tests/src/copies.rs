//! What a run does to the copies that lie there, and what it keeps, in a folder of its own.

use sm_world::Failure;
use state_saver::Files;
use std::test::Fail;
use std::{env, fs, process};
use wrapped_files::WrappedFiles;

/// The state in a new folder.
fn state_in(rt: HostRuntime, name: &str) -> Result<String, Fail> {
    let folder = env::temp_dir(&rt)?;
    let id = process::id(rt.process());
    let room = format!(in rt.alloc(); "{}/{name}-{id}", folder.as_path().as_str())?;
    fs::create_dir(&rt, room.as_str())?;
    Ok(format!(in rt.alloc(); "{room}/text")?)
}

/// Writes another file in place of the one with this name behind the state's.
fn put(rt: HostRuntime, state: &str, behind: &str, text: &str) -> Result<(), Fail> {
    let path = format!(in rt.alloc(); "{state}{behind}")?;
    let _ = fs::remove_file(&rt, path.as_str());
    Ok(fs::write(&rt, path.as_str(), text.as_bytes())?)
}

/// What the file with this name behind the state's has, or `none`.
fn text_of(rt: HostRuntime, state: &str, behind: &str) -> Result<String, Fail> {
    let path = format!(in rt.alloc(); "{state}{behind}")?;
    match fs::read_to_string(&rt, path.as_str()) {
        Ok(text) => Ok(text),
        Err(_) => Ok("none".to_string(rt.alloc())?),
    }
}

/// The texts that were kept beside the state, the oldest first, each with a blank behind it.
fn kept(rt: HostRuntime, state: &str) -> Result<String, Fail> {
    let mut paths = Vec::new(rt.alloc());
    let front = format!(in rt.alloc(); "{state}.kept-")?;
    let folder = &state[..state.rfind('/').unwrap_or(0)];
    for entry in fs::read_dir(&rt, folder)? {
        let path = format!(in rt.alloc(); "{folder}/{}", entry?.file_name())?;
        if path.as_str().starts_with(front.as_str()) {
            paths.push(path)?;
        }
    }
    paths.sort()?;
    let mut texts = String::new(rt.alloc());
    for path in &paths {
        texts.push_str(fs::read_to_string(&rt, path.as_str())?.as_str())?;
        texts.push(' ')?;
    }
    Ok(texts)
}

/// Begins with this copy, and puts it back as a run does. The answer is its number.
fn begun(rt: HostRuntime, state: &str, from: u32) -> Result<u32, Fail> {
    let mut files = WrappedFiles::new(rt);
    let number = files.begin(state, from);
    if number > 0 {
        let copy = format!(in rt.alloc(); "{state}.{number}")?;
        let bytes = files.fetch(copy.as_str())?;
        files.publish(state, bytes.as_slice())?;
    }
    Ok(number)
}

#[test]
fn what_a_copy_is_put_over_is_kept(rt: HostRuntime) -> Result<(), Fail> {
    let state = state_in(rt, "over")?;
    let state = state.as_str();
    put(rt, state, ".3", "saved")?;
    put(rt, state, ".kept-by-hand", "mine")?;
    for text in ["saved", "one", "two", "three", "four"] {
        put(rt, state, "", text)?;
        assert_eq!(rt; begun(rt, state, 3)?, 3);
        assert_eq!(rt; text_of(rt, state, "")?.as_str(), "saved");
    }
    assert_eq!(rt; kept(rt, state)?.as_str(), "two three four mine ");
    Ok(())
}

#[test]
fn a_long_file_is_kept_whole(rt: HostRuntime) -> Result<(), Fail> {
    let state = state_in(rt, "long")?;
    let state = state.as_str();
    put(rt, state, ".1", "saved")?;
    let bytes = vec![in rt.alloc(); b'x'; 70_021]?;
    fs::write(&rt, state, bytes.as_slice())?;
    assert_eq!(rt; begun(rt, state, 1)?, 1);
    assert_eq!(rt; text_of(rt, state, "")?.as_str(), "saved");
    assert_eq!(rt; kept(rt, state)?.len(), 70_022);
    Ok(())
}

#[test]
fn a_run_begins_behind_all_copies(rt: HostRuntime) -> Result<(), Fail> {
    let state = state_in(rt, "behind")?;
    let state = state.as_str();
    put(rt, state, "", "now")?;
    put(rt, state, ".2", "two")?;
    put(rt, state, ".5", "five")?;
    assert_eq!(rt; begun(rt, state, 2)?, 6);
    assert_eq!(rt; text_of(rt, state, "")?.as_str(), "two");
    assert_eq!(rt; text_of(rt, state, ".5")?.as_str(), "five");
    assert_eq!(rt; text_of(rt, state, ".6")?.as_str(), "two");
    Ok(())
}

#[test]
fn a_copy_that_is_gone_is_made_of_the_file(rt: HostRuntime) -> Result<(), Fail> {
    let state = state_in(rt, "gone")?;
    let state = state.as_str();
    assert_eq!(rt; begun(rt, state, 4)?, 0);
    assert_eq!(rt; begun(rt, state, 0)?, 0);
    put(rt, state, "", "now")?;
    assert_eq!(rt; begun(rt, state, 4)?, 4);
    assert_eq!(rt; text_of(rt, state, ".4")?.as_str(), "now");
    assert_eq!(rt; begun(rt, state, 3)?, 5);
    assert_eq!(rt; text_of(rt, state, "")?.as_str(), "now");
    Ok(())
}

#[test]
fn a_copy_takes_no_place_and_one_that_nobody_names_goes(rt: HostRuntime) -> Result<(), Fail> {
    let state = state_in(rt, "places")?;
    let state = state.as_str();
    put(rt, state, "", "now")?;
    put(rt, state, ".7", "seven")?;
    let mut files = WrappedFiles::new(rt);
    assert_eq!(rt; files.begin(state, 0), 8);
    let copy = format!(in rt.alloc(); "{state}.7")?;
    assert_eq!(rt;
        files.publish(copy.as_str(), b"other"),
        Err(Failure::Failed)
    );
    assert_eq!(rt; text_of(rt, state, ".7")?.as_str(), "seven");
    assert_eq!(rt; text_of(rt, state, ".8")?.as_str(), "now");
    let copy = format!(in rt.alloc(); "{state}.9")?;
    assert_eq!(rt; files.publish(copy.as_str(), b"other"), Ok(()));
    assert_eq!(rt; text_of(rt, state, ".9")?.as_str(), "other");
    assert_eq!(rt; text_of(rt, state, ".8")?.as_str(), "none");
    Ok(())
}
