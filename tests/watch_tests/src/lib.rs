//! Tests of what is known of a client by the frames that pass on its connection.
#![tactic(auto)]

#[cfg(test)]
mod lines;
