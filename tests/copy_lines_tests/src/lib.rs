//! Tests of `copy_lines`.
#![tactic(auto)]

#[cfg(test)]
mod tests;
