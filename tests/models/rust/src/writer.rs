//! The writer: fills one container from a list of records, in the one way.

use crate::cause::{refusal, require, Refusal, CONTAINER_LENGTH, HEADER_GRANT, NOT_VALID, TOO_LONG};
use crate::layout::{granule_start, Format, Grant, Header, Part, CONTAINER, GRANULES};
use crate::list::{records, Record, LIST};
use crate::message::Kind;
use crate::placement::Placement;

/// What one fill gives.
#[derive(Clone, PartialEq, Eq, Debug)]
pub struct Filled {
    pub container: [u8; CONTAINER],
    pub used: usize,
    pub tail: Part,
    /// The small granules that hold a record beneath a longer message.
    pub beneath: Vec<usize>,
}

/// Fills a container of a length, with causes 19, 1, 18, 4 and 17 in this order.
pub fn fill(format: u32, tail: &Part, grant: Grant, list: &[u8], container_len: usize) -> Result<Filled, Refusal> {
    let format = Format::from_number(format).ok_or(refusal(NOT_VALID, 0))?;
    require(tail.is_valid_tail(), NOT_VALID, 0)?;
    require(container_len == CONTAINER, CONTAINER_LENGTH, 0)?;
    require(list.len() <= LIST, TOO_LONG, 0)?;
    require(grant.is_well_formed(), HEADER_GRANT, 0)?;
    let records = records(list)?;
    let mut filling = Filling::new(format);
    filling.put_tail(tail.message());
    let used = filling.put_records(&records, grant);
    let (container, tail) = (filling.close(grant), Part::of(&filling.tail));
    Ok(Filled { container, used, tail, beneath: filling.beneath })
}

/// The containers that a fresh writer makes of a list that is right, with zero grants.
pub fn pack(format: u32, list: &[u8]) -> Result<Vec<[u8; CONTAINER]>, Refusal> {
    let mut containers = Vec::new();
    let mut offset = 0;
    let mut tail = Part::none();
    while offset < list.len() || tail.len > 0 {
        let filled = fill(format, &tail, Grant::default(), &list[offset..], CONTAINER)?;
        containers.push(filled.container);
        offset += filled.used;
        tail = filled.tail;
    }
    Ok(containers)
}

/// A container in the making.
struct Filling {
    format: Format,
    container: [u8; CONTAINER],
    placement: Placement,
    /// The granule above the last that is occupied.
    next: usize,
    /// What the next container owes.
    tail: Vec<u8>,
    /// The small granules that hold a record beneath a longer message.
    beneath: Vec<usize>,
}

impl Filling {
    /// A container of zeros.
    fn new(format: Format) -> Filling {
        Filling {
            format,
            container: [0; CONTAINER],
            placement: Placement::default(),
            next: 0,
            tail: Vec::new(),
            beneath: Vec::new(),
        }
    }

    /// Puts records in order until the list ends or one finds no place, and answers the bytes of list used.
    fn put_records(&mut self, records: &[Record], grant: Grant) -> usize {
        let mut used = 0;
        let mut rest = records.iter().peekable();
        while let Some(record) = rest.next() {
            let Some(granule) = self.place_for(&record.message, grant) else { break };
            self.put(&record.message, granule);
            used = record.end;
            let Some(small) = self.passed_over(granule) else { continue };
            if let Some(next) = rest.next_if(|next| self.may_lie_beneath(&next.message, small)) {
                self.put_beneath(&next.message, small);
                used = next.end;
            }
        }
        used
    }

    /// The lowest legal granule for a message, if there is one and nothing stops the fill.
    fn place_for(&self, message: &[u8], grant: Grant) -> Option<usize> {
        let kind = Kind::of(message)?;
        if kind == Kind::Activation && !grant.is_empty() || !self.tail.is_empty() {
            return None;
        }
        (self.next..GRANULES).find(|&g| self.is_legal(kind, g))
    }

    /// Whether the container with a message at a granule keeps all placement rules.
    fn is_legal(&self, kind: Kind, granule: usize) -> bool {
        let placement = self.placement.with(self.format, granule, kind);
        kind.may_begin_at(self.format, granule) && placement.judge_groups().is_ok()
    }

    /// The small granule that the message just put at a granule passes over, G11 if it goes on in the next container.
    fn passed_over(&self, first: usize) -> Option<usize> {
        let end = if self.tail.is_empty() { self.next } else { GRANULES };
        (first + 1..end).find(|&g| self.format.is_small(g))
    }

    /// Whether a message may lie in a small granule beneath a longer one, which an Activation never does.
    fn may_lie_beneath(&self, message: &[u8], small: usize) -> bool {
        Kind::of(message).is_some_and(|kind| kind != Kind::Activation && self.is_legal(kind, small))
    }

    /// Puts the owed tail from G0.
    fn put_tail(&mut self, tail: &[u8]) {
        self.put_bytes(tail, 0);
    }

    /// Puts a message at a granule.
    fn put(&mut self, message: &[u8], granule: usize) {
        self.placement.starts[granule] = Kind::of(message);
        self.put_bytes(message, granule);
    }

    /// Puts a message in a small granule beneath the longer one, whose rest stays the tail.
    fn put_beneath(&mut self, message: &[u8], small: usize) {
        self.placement.starts[small] = Kind::of(message);
        self.put_part(message, small);
        self.beneath.push(small);
    }

    /// Puts bytes from a granule on, and owes those that find no room.
    fn put_bytes(&mut self, bytes: &[u8], from: usize) {
        let mut rest = bytes;
        for g in self.format.occupied(from, bytes.len()) {
            let (part, behind) = rest.split_at(rest.len().min(self.format.granule_size(g)));
            self.put_part(part, g);
            rest = behind;
        }
        self.tail = rest.to_vec();
    }

    /// Puts the part of a message that lies in one granule.
    fn put_part(&mut self, part: &[u8], granule: usize) {
        let start = granule_start(granule);
        self.container[start..start + part.len()].copy_from_slice(part);
        self.placement.populated[granule] = true;
        self.next = self.next.max(granule + 1);
    }

    /// The container with its header.
    fn close(&self, grant: Grant) -> [u8; CONTAINER] {
        let mut container = self.container;
        let starts = self.placement.starts.map(|start| start.is_some());
        Header { starts, grant }.write(self.format, &mut container);
        container
    }
}
