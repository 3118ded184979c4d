//! The order in which packed messages are read.

use crate::layout::Format;
use crate::message::{Charge, Kind, CHARGES};

/// Whether the messages read are those packed: in X in order, in Y each once and those with one charge in order.
pub fn is_returned(format: Format, packed: &[Vec<u8>], read: &[Vec<u8>]) -> bool {
    match format {
        Format::X => packed == read,
        Format::Y => {
            let in_order = |charge: &Charge| paying(packed, *charge) == paying(read, *charge);
            sorted(packed) == sorted(read) && CHARGES.iter().all(in_order)
        }
    }
}

/// The messages with a charge, in order.
fn paying(messages: &[Vec<u8>], charge: Charge) -> Vec<&Vec<u8>> {
    let pays = |message: &&Vec<u8>| Kind::of(message).is_some_and(|kind| kind.charges().contains(&charge));
    messages.iter().filter(pays).collect()
}

/// The messages in the order of their bytes.
fn sorted(messages: &[Vec<u8>]) -> Vec<&Vec<u8>> {
    let mut messages: Vec<_> = messages.iter().collect();
    messages.sort();
    messages
}
