//! Tests of `program_spawner`.
#![tactic(auto)]

#[cfg(test)]
mod tests;
