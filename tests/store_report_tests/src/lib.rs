//! Tests of `store_report`.
#![tactic(auto)]

#[cfg(test)]
mod tests;
