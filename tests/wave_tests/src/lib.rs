//! Tests of the waves in which the programs of a login are started.
#![tactic(auto)]

#[cfg(test)]
mod priorities;
#[cfg(test)]
mod waves;
