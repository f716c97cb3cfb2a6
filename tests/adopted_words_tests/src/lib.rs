//! Tests of what a user says of programs that are adopted.
#![tactic(auto)]

#[cfg(test)]
mod tests;
