use program_texts::SMD;
use std::test::Fail;

#[test]
fn a_version_is_one_line(_rt: HostRuntime) -> Result<(), Fail> {
    if SMD.starts_with("smd 0.1.0, proved with ") && SMD.ends_with("\n") {
        return Ok(());
    }
    Err("a version of another form".into())
}
