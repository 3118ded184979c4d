//! The verdict on a whole log.

use std::fmt;

use crate::cause::{refusal, require, Refusal, BROKEN, NOT_VALID, TOO_LONG};
use crate::layout::{Format, CONTAINER};
use crate::ledger::{Ledger, Receiver, DIRECTIONS, POOLS};
use crate::list::read_number;

pub const LARGEST_LOG: u64 = 16_777_215;

/// The entries accepted, and the refusal that ended the log, if any.
#[derive(Clone, Copy, PartialEq, Eq, Debug)]
pub struct Verdict {
    pub accepted: u64,
    pub refused: Option<Refusal>,
}

impl fmt::Display for Verdict {
    /// The line that the program prints.
    fn fmt(&self, f: &mut fmt::Formatter<'_>) -> fmt::Result {
        match self.refused {
            None => write!(f, "accepted {}", self.accepted),
            Some(r) => write!(f, "refused {} {} {}", self.accepted, r.cause, r.place),
        }
    }
}

/// The verdict on a log.
pub fn verdict(log: &[u8]) -> Verdict {
    verdict_up_to(log, LARGEST_LOG)
}

/// The verdict on a log that may have so many entries.
pub fn verdict_up_to(log: &[u8], most: u64) -> Verdict {
    let mut accepted = 0;
    let refused = audit_log(log, most, &mut accepted).err();
    Verdict { accepted, refused }
}

/// Audits a log to its end or its first refusal, and counts the entries accepted.
fn audit_log(log: &[u8], most: u64, accepted: &mut u64) -> Result<(), Refusal> {
    let mut cursor = Cursor { log, offset: 0 };
    let mut ledger = read_configuration(&mut cursor)?;
    while cursor.offset < log.len() {
        require(*accepted < most, TOO_LONG, 0)?;
        let (direction, container) = cursor.entry()?;
        ledger = ledger.audit(direction, container)?;
        *accepted += 1;
    }
    Ok(())
}

/// Reads the 33 numbers, each judged for form and then for value.
fn read_configuration(cursor: &mut Cursor) -> Result<Ledger, Refusal> {
    let format = cursor.number()?;
    require(Format::from_number(format).is_some(), NOT_VALID, 0)?;
    let mut receivers = [Receiver { planes: 0, push: 0, capacities: [0; POOLS] }; DIRECTIONS];
    for receiver in &mut receivers {
        receiver.planes = cursor.number()?;
        require((1..=8).contains(&receiver.planes), NOT_VALID, 0)?;
        receiver.push = cursor.number()?;
        require(receiver.push <= 1, NOT_VALID, 0)?;
        for pool in 0..POOLS {
            receiver.capacities[pool] = cursor.number()?;
            require(receiver.is_capacity_valid(pool), NOT_VALID, 0)?;
        }
    }
    Ledger::fresh(format, receivers)
}

/// A log and how far it is read.
struct Cursor<'a> {
    log: &'a [u8],
    offset: usize,
}

impl<'a> Cursor<'a> {
    /// Reads a number; a broken one is cause 17 at its offset.
    fn number(&mut self) -> Result<u32, Refusal> {
        let (value, len) = read_number(&self.log[self.offset..]).ok_or(refusal(BROKEN, self.offset))?;
        self.offset += len;
        Ok(value)
    }

    /// Reads an entry's direction and container; one cut short is cause 17 at the entry's offset.
    fn entry(&mut self) -> Result<(u32, &'a [u8]), Refusal> {
        let start = self.offset;
        let number = self.number()?;
        let end = self.offset + CONTAINER;
        let container = self.log.get(self.offset..end).ok_or(refusal(BROKEN, start))?;
        self.offset = end;
        Ok((number % 2, container))
    }
}
