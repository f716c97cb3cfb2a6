//! Tests of the client's end.
#![tactic(auto)]

#[cfg(test)]
mod calls;
#[cfg(test)]
mod engine;
#[cfg(test)]
mod frames;
#[cfg(test)]
mod joining;
#[cfg(test)]
mod peers;
#[cfg(test)]
mod phases;
#[cfg(test)]
mod worlds;
