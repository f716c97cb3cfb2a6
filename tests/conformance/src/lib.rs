//! Worked sessions over a store: what is done in their course, what a crash leaves after each effect,
//! and each call of the world failing in turn. Each is a table of text.
#![tactic(auto)]

#[cfg(test)]
mod crashes;
#[cfg(test)]
mod failures;
#[cfg(test)]
mod sessions;
#[cfg(test)]
mod shown;
#[cfg(test)]
mod words;
