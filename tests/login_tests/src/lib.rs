//! Tests of `kept_books`, `login_plan` and `store_login`: what stays on a shelf, what a login does by
//! what was chosen, what is told of it, and what its words say.
#![tactic(auto)]

#[cfg(test)]
mod notation;
#[cfg(test)]
mod plans;
#[cfg(test)]
mod shelves;
#[cfg(test)]
mod words;
