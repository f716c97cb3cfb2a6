//! Tests of `unix_peer`.
#![tactic(auto)]

#[cfg(test)]
mod tests;
