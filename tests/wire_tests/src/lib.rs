//! Tests of the wire: its values, messages, frames and set-up.
#![tactic(auto)]

#[cfg(test)]
mod authority;
#[cfg(test)]
mod cookies;
#[cfg(test)]
mod frames;
#[cfg(test)]
mod framing;
#[cfg(test)]
mod ice;
#[cfg(test)]
mod opener;
#[cfg(test)]
mod setup;
#[cfg(test)]
mod texts;
#[cfg(test)]
mod values;
#[cfg(test)]
mod views;
#[cfg(test)]
mod written;
#[cfg(test)]
mod xsmp;
