//! Tests of `session_return`.
#![tactic(auto)]

#[cfg(test)]
mod rows;
