//! Tests of the keeper of a program that knows no session.
#![tactic(auto)]

#[cfg(test)]
mod frames;
#[cfg(test)]
mod keepers;
#[cfg(test)]
mod talks;
