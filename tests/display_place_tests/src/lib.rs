//! Tests of where an X display is, and of its cookie.
#![tactic(auto)]

#[cfg(test)]
mod authority;
#[cfg(test)]
mod choice;
#[cfg(test)]
mod names;
