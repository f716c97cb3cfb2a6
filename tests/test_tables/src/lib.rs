//! Tables of tests. A table is a text, and each of its lines is a row: `INPUT => WANTED`.
#![tactic(auto)]

use std::alloc::{Alloc, Global};
use std::fmt::Debug;
use std::test::Fail;

/// How a value shows itself.
pub fn text_of<T: Debug>(alloc: Global, value: &T) -> Result<String, Fail> {
    Ok(format!(in alloc; "{value:?}")?)
}

/// Fails where an input is shown otherwise than its row wants.
pub fn expect_rows<F: Fn(Global, &str) -> Result<String, Fail>>(
    rt: &impl Alloc<A = Global>,
    rows: &str,
    shown: F,
) -> Result<(), Fail>
    requires { F.IsAlwaysCallable shown }
{
    for row in rows.lines() {
        let Some((input, want)) = row.split_once(" => ") else {
            return Err("a row without an arrow".into());
        };
        let text = shown(rt.alloc(), input)?;
        if text.as_str() != want {
            return Err(Fail::new(format_args!("for {input}: {text}, and not {want}")));
        }
    }
    Ok(())
}

/// The words of a line, of which a blank stands between two.
pub fn words_of(alloc: Global, line: &str) -> Result<Vec<String>, Fail> {
    let mut words = Vec::new(alloc);
    for word in line.split(" ") {
        words.push(word.to_string(alloc)?)?;
    }
    Ok(words)
}
