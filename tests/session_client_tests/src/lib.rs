//! Tests of how a program finds its manager and joins a session.
#![tactic(auto)]

#[cfg(test)]
mod joining;
#[cfg(test)]
mod places;
