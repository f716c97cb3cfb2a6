//! A manager and its clients together: ten thousand schedules of messages by chance, a hundred and fifty
//! sessions by bytes with clients of three kinds, and a cancellation that crosses the answers to a save.
#![tactic(auto)]

#[cfg(test)]
mod company;
#[cfg(test)]
mod dice;
#[cfg(test)]
mod guests;
#[cfg(test)]
mod late;
#[cfg(test)]
mod schedules;
#[cfg(test)]
mod sittings;
#[cfg(test)]
mod streams;
