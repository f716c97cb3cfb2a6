//! Tests of `store_file`.
#![tactic(auto)]

#[cfg(test)]
mod tests;
