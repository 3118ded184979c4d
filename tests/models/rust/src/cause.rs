//! The causes of refusal and their numbers.

pub const CONTAINER_LENGTH: u32 = 1;
pub const ROOM: u32 = 2;
pub const RESERVED_HEADER: u32 = 3;
pub const HEADER_GRANT: u32 = 4;
pub const START_INSIDE: u32 = 5;
pub const UNKNOWN_TYPE: u32 = 6;
pub const PLACE: u32 = 7;
pub const HEAD: u32 = 8;
pub const UNUSED_BYTE: u32 = 9;
pub const GAP: u32 = 10;
pub const SECOND_MISC: u32 = 11;
pub const RESPONSES: u32 = 12;
pub const GRANT_BESIDE_ACTIVATION: u32 = 13;
pub const MISSING_POOL: u32 = 14;
pub const OVER_GRANTED: u32 = 15;
pub const OVER_CAPACITY: u32 = 16;
pub const BROKEN: u32 = 17;
pub const TOO_LONG: u32 = 18;
pub const NOT_VALID: u32 = 19;
pub const MISSING_GRANT_POOL: u32 = 21;

/// The place of the header where the place is a granule.
pub const HEADER_PLACE: usize = 12;

/// A cause and the place that it names.
#[derive(Clone, Copy, PartialEq, Eq, Debug)]
pub struct Refusal {
    pub cause: u32,
    pub place: u64,
}

/// A refusal at a place.
pub fn refusal(cause: u32, place: usize) -> Refusal {
    Refusal { cause, place: place as u64 }
}

/// A refusal at a place unless the rule is kept.
pub fn require(kept: bool, cause: u32, place: usize) -> Result<(), Refusal> {
    if kept {
        Ok(())
    } else {
        Err(refusal(cause, place))
    }
}
