//! Tests of what smctl asks of a session manager, and what it shows of the answers.
#![tactic(auto)]

#[cfg(test)]
mod answer_lines;
#[cfg(test)]
mod asked;
#[cfg(test)]
mod ends;
#[cfg(test)]
mod looks;
#[cfg(test)]
mod shown;
