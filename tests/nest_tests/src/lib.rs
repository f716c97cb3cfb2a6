//! Tests of `smnest_app`: rehearsals by their traces, and calls by their words over worlds in memory.
#![tactic(auto)]

#[cfg(test)]
mod calls;
#[cfg(test)]
mod places;
#[cfg(test)]
mod rows;
#[cfg(test)]
mod traces;
