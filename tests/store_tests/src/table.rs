//! Tables of tests. A table is a text, and each of its lines is a row: `INPUT => WANTED`.

use std::alloc::{Alloc, Global};
use std::fmt::Debug;
use std::process::Abort;
use std::test::Fail;

/// How a value shows itself.
pub fn text_of<T: Debug>(alloc: Global, value: &T) -> Result<String, Fail> {
    Ok(format!(in alloc; "{value:?}")?)
}

/// Ends the test where an input is shown otherwise than its row wants.
pub fn expect_rows<F: Fn(Global, &str) -> Result<String, Fail>>(
    rt: &(impl Abort + Alloc<A = Global>),
    rows: &str,
    shown: F,
) -> Result<(), Fail>
    requires { F.IsAlwaysCallable shown }
{
    for row in rows.lines() {
        let Some((input, want)) = row.split_once(" => ") else {
            return Err("a row without an arrow".into());
        };
        let text = shown(rt.alloc(), input)?;
        assert_eq!(rt; text.as_str(), want, "for {input}");
    }
    Ok(())
}

/// The bytes that a row writes as hex digits.
pub fn bytes_of(alloc: Global, digits: &str) -> Result<Vec<u8>, Fail> {
    Ok(hex::decode(alloc, digits)?)
}

pub fn digits_of(alloc: Global, bytes: &[u8]) -> Result<String, Fail> {
    Ok(hex::encode(alloc, bytes)?)
}
