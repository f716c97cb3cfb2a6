//! Tests of what ticks tell of a clock.
#![tactic(auto)]

#[cfg(test)]
mod tests;
