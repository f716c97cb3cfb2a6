//! Tests of clients whose callbacks are told their ID, of those that save a program's file, and of the program that
//! wraps one.
#![tactic(auto)]

#[cfg(test)]
mod frames;
#[cfg(test)]
mod named;
#[cfg(test)]
mod saving;
#[cfg(test)]
mod starving;
#[cfg(test)]
mod wrapping;
