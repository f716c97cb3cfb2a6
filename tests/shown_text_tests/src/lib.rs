//! Tests of `shown_text`.
#![tactic(auto)]

#[cfg(test)]
mod tests;
