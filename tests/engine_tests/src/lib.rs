//! Tests of the session machine over a world, and of its traces.
#![tactic(auto)]

#[cfg(test)]
mod sessions;
#[cfg(test)]
mod stores;
#[cfg(test)]
mod telling;
#[cfg(test)]
mod traces;
