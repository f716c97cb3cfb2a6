//! Tests of `desktop_world`.
#![tactic(auto)]

#[cfg(test)]
mod tests;
