//! Whole sessions over real sockets, files and programs, as tests.
#![tactic(auto)]

#[cfg(test)]
mod reopened_tests;
#[cfg(test)]
mod tests;
