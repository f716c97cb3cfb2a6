//! Tests of the record of a session.
#![tactic(auto)]

#[cfg(test)]
mod files;
#[cfg(test)]
mod openings;
#[cfg(test)]
mod sessions;
