//! Books in the rows of tests, as a line of text each, and what comes back of one.
#![tactic(auto)]

mod notation;
mod returns;

pub use notation::{book_from, command, shown};
pub use returns::{parted, which_of};
