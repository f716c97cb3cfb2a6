//! Tests of what programs are taken to mean that don't keep to the letter of the session protocol.
#![tactic(auto)]

#[cfg(test)]
mod answers;
#[cfg(test)]
mod ends;
#[cfg(test)]
mod passing;
#[cfg(test)]
mod properties;
#[cfg(test)]
mod stand_ins;
#[cfg(test)]
mod streams;
#[cfg(test)]
mod table;
#[cfg(test)]
mod together;
#[cfg(test)]
mod worlds;
