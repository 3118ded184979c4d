//! The states that an all-zero container is handed to: fresh, and behind every message that can be carried.

use std::iter::once;

use model::layout::{Format, CONTAINER, GRANULES};
use model::ledger::{DIRECTIONS, POOLS};
use model::message::{Kind, KINDS};

use crate::bench::container::{locate_granule, locate_header};
use crate::bench::ledger::Ledger;
use crate::bench::pools::Receiver;
use crate::bench::reader::Reader;

/// A container in which a message starts, behind requests that fill its group before it.
fn starting(format: u32, kind: Kind, granule: u8) -> [u8; CONTAINER] {
    let mut container = [0; CONTAINER];
    for g in granule / 3 * 3..=granule {
        let (number, _) = if g < granule { Kind::ReqS } else { kind }.code();
        container[locate_granule(g)] = number;
        container[locate_header(format, g / 8)] |= 1 << (g % 8);
    }
    container
}

/// A container for each message that is longer than a granule, and so can be carried, and each granule.
fn beginnings(format: u32) -> impl Iterator<Item = [u8; CONTAINER]> {
    let longer = KINDS.into_iter().filter(|kind| kind.size() > Format::X.granule_size(0));
    longer.flat_map(move |kind| (0..GRANULES as u8).map(move |granule| starting(format, kind, granule)))
}

/// The fresh reader first, then those that carry a message.
pub fn readers(format: u32) -> Vec<Reader> {
    let fresh = Reader::fresh(format).ok().expect("a format");
    let carrying =
        beginnings(format).map(|container| fresh.judge(&container).reader).filter(|reader| reader.carry.len > 0);
    once(fresh).chain(carrying).collect()
}

/// A ledger, and those behind it that carry a message in a direction.
fn behind(ledger: Ledger, direction: u32) -> Vec<Ledger> {
    let next = beginnings(ledger.format).map(|container| ledger.audit(direction, &container).ledger);
    let carrying = next.filter(|next| [next.carry0, next.carry1][direction as usize].len > 0);
    once(ledger).chain(carrying).collect()
}

/// The ledger that carries nothing first, then those that carry a message in one direction or in both.
pub fn ledgers(format: u32) -> Vec<Ledger> {
    let receiver = Receiver { planes: 8, push: true, capacities: [8; POOLS] };
    let fresh =
        Ledger { held: [4; DIRECTIONS * POOLS], ..Ledger::fresh(format, receiver, receiver).ok().expect("a ledger") };
    behind(fresh, 0).into_iter().flat_map(|ledger| behind(ledger, 1)).collect()
}
