//! Tests of the session: its parts, its clients, its books and its manager.
#![tactic(auto)]

#[cfg(test)]
mod answers;
#[cfg(test)]
mod books;
#[cfg(test)]
mod clients;
#[cfg(test)]
mod discards;
#[cfg(test)]
mod manager;
#[cfg(test)]
mod queue;
#[cfg(test)]
mod restarts;
#[cfg(test)]
mod rounds;
#[cfg(test)]
mod written;
