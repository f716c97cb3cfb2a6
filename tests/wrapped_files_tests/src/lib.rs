//! Tests of `wrapped_files`.
#![tactic(auto)]

#[cfg(test)]
mod copies;
#[cfg(test)]
mod tests;
