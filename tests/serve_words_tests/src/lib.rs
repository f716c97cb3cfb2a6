//! Tests of what the words of `serve` say.
#![tactic(auto)]

#[cfg(test)]
mod words;
