//! Tests of `program_texts`.
#![tactic(auto)]

#[cfg(test)]
mod tests;
