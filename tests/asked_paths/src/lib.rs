//! A world that notes which paths are handed to it. No clause says which, since opening a thing adds no
//! effect.
#![tactic(auto)]

mod asked;
mod layers;
mod outer;
mod peer;

pub use asked::Asked;
