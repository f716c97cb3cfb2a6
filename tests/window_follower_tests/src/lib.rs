//! Tests of the follower of a display's windows, beside a display that holds what a table says.
#![tactic(auto)]

#[cfg(test)]
mod desk;
#[cfg(test)]
mod display;
#[cfg(test)]
mod following;
#[cfg(test)]
mod parts;
