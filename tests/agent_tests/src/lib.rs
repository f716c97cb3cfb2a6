//! Tests of a manager as a client of an outer one.
#![tactic(auto)]

#[cfg(test)]
mod agents;
#[cfg(test)]
mod frames;
#[cfg(test)]
mod outer;
