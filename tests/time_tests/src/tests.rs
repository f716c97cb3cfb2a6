use std::alloc::Global;
use std::process::Abort;
use std::test::Fail;
use test_tables::expect_rows;
use world_time::Hours;

/// Adds what a step tells: `give` and `listen` as the clock shows a number, `forget`, and `tell`.
fn put_step(alloc: Global, hours: &mut Hours, step: &str, text: &mut String) -> Result<(), Fail> {
    match step.split_once(' ') {
        Some(("give", now)) => hours.give(now.parse::<u64>()?),
        Some((_, now)) => hours.listen(now.parse::<u64>()?),
        None if step == "forget" => hours.forget(),
        None => {
            let (untold, told) = (hours.untold(), hours.tell());
            let line = format!(in alloc; "{told} of {untold} at {} ", hours.read())?;
            text.push_str(line.as_str())?;
        }
    }
    Ok(())
}

/// What these steps tell, and for how long the clock went on but for what was too long at once.
fn told_by(alloc: Global, steps: &str) -> Result<String, Fail> {
    let mut hours = Hours::new();
    let mut text = String::new(alloc);
    for step in steps.split(',') {
        put_step(alloc, &mut hours, step, &mut text)?;
    }
    let line = format!(in alloc; "awake {}", hours.awake())?;
    text.push_str(line.as_str())?;
    Ok(text)
}

const ROWS: &str = "\
tell => 0 of 0 at 0 awake 0
listen 100,tell => 100 of 100 at 100 awake 100
listen 100,tell,tell => 100 of 100 at 100 0 of 0 at 100 awake 100
listen 100,listen 250,tell,listen 500,tell => 250 of 250 at 250 250 of 250 at 500 awake 500
listen 100,give 900,listen 1000,tell => 100 of 100 at 1000 awake 700
listen 100,give 100,listen 350,tell => 250 of 250 at 350 awake 350
listen 200,forget,listen 300,tell => 100 of 100 at 300 awake 300
listen 9000,tell => 500 of 500 at 9000 awake 500
listen 400,listen 800,listen 9000,tell => 500 of 1300 at 9000 awake 1300
listen 300,listen 200,listen 350,tell => 350 of 350 at 350 awake 350
give 700,give 600,listen 650,listen 750,tell => 50 of 50 at 750 awake 550
listen 18446744073709551615,listen 5,tell => 500 of 500 at 18446744073709551615 awake 500";

#[test]
fn ticks_tell_what_was_listened(rt: HostRuntime) -> Result<(), Fail> {
    expect_rows(&rt, ROWS, told_by)
}
