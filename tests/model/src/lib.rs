//! A plain model of document 01's host and of its script program, and the
//! means to compare another program with it.

pub mod child;
pub mod comparison;
pub mod host;
pub mod maker;
pub mod random;
pub mod script;
pub mod scripts;
pub mod words;

#[cfg(test)]
mod tests;
