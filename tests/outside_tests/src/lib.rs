//! Tests of the outside and of the lines of people.
#![tactic(auto)]

#[cfg(test)]
mod disks;
#[cfg(test)]
mod frame;
#[cfg(test)]
mod lines;
#[cfg(test)]
mod worlds;
