//! Tests of what is kept of clients, and of its bytes.
#![tactic(auto)]

#[cfg(test)]
mod amendments;
#[cfg(test)]
mod books;
#[cfg(test)]
mod full_slots;
#[cfg(test)]
mod journal;
#[cfg(test)]
mod properties;
#[cfg(test)]
mod records;
#[cfg(test)]
mod slots;
#[cfg(test)]
mod table;
