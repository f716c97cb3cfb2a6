//! Tests of what is said to a display and read from it: `display_messages` and `display_stream`.
#![tactic(auto)]

#[cfg(test)]
mod parts;
#[cfg(test)]
mod replies;
#[cfg(test)]
mod requests;
#[cfg(test)]
mod setups;
#[cfg(test)]
mod streams;
