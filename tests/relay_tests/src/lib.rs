//! Tests of the relay between byte orders.
#![tactic(auto)]

#[cfg(test)]
mod frames;
#[cfg(test)]
mod pairs;
#[cfg(test)]
mod program;
