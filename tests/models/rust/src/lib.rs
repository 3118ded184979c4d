//! The bench rules in plain Rust, written apart from the proved code to compare with it.

pub mod cause;
pub mod feeder;
pub mod layout;
pub mod ledger;
pub mod list;
pub mod log;
pub mod message;
pub mod order;
pub mod placement;
pub mod reader;
pub mod writer;

#[cfg(test)]
mod examples;
