//! Accepted logs in two orders: the same containers in the same order within each direction, the directions interleaved anew.

use std::collections::VecDeque;

use model::ledger::{Ledger, DIRECTIONS};

use crate::logs::{self, Entry, Log};
use crate::random::Random;

/// Direction 1 is tried first in some of so many tries.
const TRIES: usize = 10;

/// A log that the model accepts, and the model's ledger behind it.
pub struct Accepted {
    pub log: Log,
    pub ledger: Ledger,
}

impl Accepted {
    /// The directions of the entries, in order.
    fn directions(&self) -> Vec<u8> {
        self.log.entries.iter().map(|entry| entry.direction).collect()
    }
}

/// A random accepted log and another order of it that is accepted too; none if none was found.
pub fn pair(random: &mut Random) -> Option<[Accepted; 2]> {
    let one = keep_accepted(logs::log(random))?;
    let other = interleave(random, &one.log)?;
    (one.directions() != other.directions()).then_some([one, other])
}

/// A log without the entries that are refused; none if its configuration is not valid.
fn keep_accepted(log: Log) -> Option<Accepted> {
    let mut ledger = Ledger::from_numbers(&log.numbers).ok()?;
    let mut entries = Vec::new();
    for entry in log.entries {
        if let Ok(next) = ledger.audit(u32::from(entry.direction), &entry.container) {
            ledger = next;
            entries.push(entry);
        }
    }
    Some(Accepted { log: Log { numbers: log.numbers, entries, cut: Vec::new() }, ledger })
}

/// The entries of an accepted log in another order; none if what is next in both directions is refused.
fn interleave(random: &mut Random, log: &Log) -> Option<Accepted> {
    let mut ledger = Ledger::from_numbers(&log.numbers).ok()?;
    let mut waiting: [VecDeque<&Entry>; DIRECTIONS] = Default::default();
    for entry in &log.entries {
        waiting[usize::from(entry.direction)].push_back(entry);
    }
    let some = random.pick(&[1, 5, 9]);
    let mut entries = Vec::new();
    while entries.len() < log.entries.len() {
        let first = usize::from(random.below(TRIES) < some);
        let (direction, next) = [first, 1 - first].into_iter().find_map(|direction| {
            let entry = waiting[direction].front()?;
            let next = ledger.audit(direction as u32, &entry.container).ok()?;
            Some((direction, next))
        })?;
        ledger = next;
        entries.extend(waiting[direction].pop_front().cloned());
    }
    Some(Accepted { log: Log { numbers: log.numbers.clone(), entries, cut: Vec::new() }, ledger })
}
