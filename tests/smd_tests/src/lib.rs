//! Tests of `smd_app`: calls by their words over worlds in memory, and the line of each fault.
#![tactic(auto)]

#[cfg(test)]
mod calls;
#[cfg(test)]
mod faults;
#[cfg(test)]
mod places;
#[cfg(test)]
mod rows;
#[cfg(test)]
mod worlds;
