//! Tests of the links over Unix sockets, with peers that read, write, wait and go, with an outer manager,
//! and of who makes way.
#![tactic(auto)]

#[cfg(test)]
mod links;
#[cfg(test)]
mod outer;
#[cfg(test)]
mod strangers;
#[cfg(test)]
mod times;
#[cfg(test)]
mod visitors;
