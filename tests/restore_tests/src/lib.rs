//! Tests of `store_return` and of `store_login`: what a restore writes into a store, what a crash of it
//! leaves, what is told, what the words of one say, and what a login keeps and writes.
#![tactic(auto)]

#[cfg(test)]
mod logins;
#[cfg(test)]
mod stores;
#[cfg(test)]
mod words;
