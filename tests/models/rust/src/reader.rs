//! The reader: judges one container from a carry.

use crate::cause::{
    refusal, require, Refusal, CONTAINER_LENGTH, GRANT_BESIDE_ACTIVATION, HEAD, NOT_VALID, PLACE, ROOM, START_INSIDE,
    UNKNOWN_TYPE, UNUSED_BYTE,
};
use crate::layout::{is_zero, Format, Grant, Header, Part, CONTAINER, GRANULES};
use crate::list::write_list;
use crate::message::Kind;
use crate::placement::Placement;

pub const LEAST_ROOM: usize = 352;

/// A message that starts in a granule, by its bytes there.
#[derive(Clone, PartialEq, Eq, Debug)]
pub struct Start {
    pub granule: usize,
    pub message: Vec<u8>,
}

/// What an accepted container says.
#[derive(Clone, PartialEq, Eq, Debug)]
pub struct Reading {
    /// The messages that start, in granule order.
    pub started: Vec<Start>,
    /// The messages that end, in order of their last granules.
    pub finished: Vec<Vec<u8>>,
    /// What the next container of the direction goes on with.
    pub carry: Part,
    /// The header's grant.
    pub grant: Grant,
}

/// Whether a carry is empty, or some first twenties of a well-headed longer message with zeros behind.
pub fn is_valid_carry(carry: &Part) -> bool {
    if !carry.is_valid_tail() {
        return false;
    }
    if carry.len == 0 {
        return true;
    }
    let message = carry.message();
    Kind::of(message).is_some_and(|kind| carry.len < kind.size() && kind.is_well_headed(message))
}

/// Judges a container from a carry.
pub fn judge(format: Format, carry: &Part, container: &[u8]) -> Result<Reading, Refusal> {
    require(is_valid_carry(carry), NOT_VALID, 0)?;
    require(container.len() == CONTAINER, CONTAINER_LENGTH, 0)?;
    judge_bytes(format, carry, container)
}

/// Reads a container into lent room; a refusal leaves the room as it was.
pub fn read(format: Format, carry: &Part, container: &[u8], room: &mut [u8]) -> Result<(Reading, usize), Refusal> {
    require(is_valid_carry(carry), NOT_VALID, 0)?;
    require(container.len() == CONTAINER, CONTAINER_LENGTH, 0)?;
    require(room.len() >= LEAST_ROOM, ROOM, 0)?;
    let reading = judge_bytes(format, carry, container)?;
    let records = write_list(&reading.finished);
    room[..records.len()].copy_from_slice(&records);
    Ok((reading, records.len()))
}

/// The host's check of one container from a fresh state: 0 or cause times 65,536 plus place.
pub fn check(format: u32, container: &[u8], room: &mut [u8]) -> u32 {
    let answer = match Format::from_number(format) {
        None => Err(refusal(NOT_VALID, 0)),
        Some(format) => read(format, &Part::none(), container, room),
    };
    code(answer.err())
}

/// Judges one container from a fresh state without room: 0 or cause times 65,536 plus place.
pub fn judge_fresh(format: u32, container: &[u8]) -> u32 {
    let answer = match Format::from_number(format) {
        None => Err(refusal(NOT_VALID, 0)),
        Some(format) => judge(format, &Part::none(), container),
    };
    code(answer.err())
}

/// An answer as the host's number.
fn code(refused: Option<Refusal>) -> u32 {
    refused.map_or(0, |r| r.cause * 65_536 + r.place as u32)
}

/// Judges 256 bytes from a valid carry: causes 3 to 13.
fn judge_bytes(format: Format, carry: &Part, container: &[u8]) -> Result<Reading, Refusal> {
    let header = Header::read(format, container)?;
    let mut walk = Walk::from_carry(carry);
    for g in 0..GRANULES {
        walk.step(format, g, header.starts[g], format.granule(container, g))?;
    }
    walk.placement.judge_groups()?;
    let activates = walk.placement.has(Kind::Activation);
    require(!activates || header.grant.is_empty(), GRANT_BESIDE_ACTIVATION, 0)?;
    Ok(Reading { started: walk.started, finished: walk.finished, carry: Part::of(&walk.open), grant: header.grant })
}

/// What is known of a container after some of its granules.
struct Walk {
    /// The bytes so far of the message that goes on, none if empty.
    open: Vec<u8>,
    placement: Placement,
    started: Vec<Start>,
    finished: Vec<Vec<u8>>,
}

impl Walk {
    /// Nothing but the carried message.
    fn from_carry(carry: &Part) -> Walk {
        Walk {
            open: carry.message().to_vec(),
            placement: Placement::default(),
            started: Vec::new(),
            finished: Vec::new(),
        }
    }

    /// Judges one granule: causes 5 to 9.
    fn step(&mut self, format: Format, g: usize, start: bool, granule: &[u8]) -> Result<(), Refusal> {
        let goes_on = !self.open.is_empty() && !format.is_small(g);
        let mut used = 0;
        if start {
            require(!goes_on, START_INSIDE, g)?;
            used = self.begin(format, g, granule)?;
        } else if goes_on {
            used = self.go_on(granule);
        }
        self.placement.populated[g] = start || goes_on;
        require(is_zero(&granule[used..]), UNUSED_BYTE, g)
    }

    /// Begins a message at a granule and answers the bytes of the granule used.
    fn begin(&mut self, format: Format, g: usize, granule: &[u8]) -> Result<usize, Refusal> {
        let kind = Kind::of(granule).ok_or(refusal(UNKNOWN_TYPE, g))?;
        require(kind.may_begin_at(format, g), PLACE, g)?;
        require(kind.is_well_headed(granule), HEAD, g)?;
        self.placement.starts[g] = Some(kind);
        let used = kind.size().min(granule.len());
        let part = granule[..used].to_vec();
        self.started.push(Start { granule: g, message: part.clone() });
        if used == kind.size() {
            self.finished.push(part);
        } else {
            self.open = part;
        }
        Ok(used)
    }

    /// Goes on with the open message and answers the bytes of the granule used.
    fn go_on(&mut self, granule: &[u8]) -> usize {
        let used = self.missing().min(granule.len());
        self.open.extend_from_slice(&granule[..used]);
        if self.missing() == 0 {
            self.finished.push(std::mem::take(&mut self.open));
        }
        used
    }

    /// How many bytes the open message still lacks.
    fn missing(&self) -> usize {
        Kind::of(&self.open).map_or(0, |kind| kind.size() - self.open.len())
    }
}
