//! The feeder: hands out the records of two waiting lists, responses first, but not more than four in a row before the others.

use crate::cause::{refusal, require, Refusal, BROKEN, NOT_VALID, ROOM, TOO_LONG};
use crate::layout::Format;
use crate::list::{read_record, LIST};
use crate::message::Kind;

pub const LONGEST_RUN: u32 = 4;
pub const LEAST_ROOM: usize = 121;
pub const NUMBERS: usize = 3;

/// One of the two waiting lists: that of the responses, or that of everything else.
#[derive(Clone, Copy, PartialEq, Eq, Debug)]
pub enum Waiting {
    Responses,
    Others,
}

impl Waiting {
    /// Whether messages of a kind belong in the list.
    pub fn takes(self, kind: Kind) -> bool {
        kind.is_response() == (self == Waiting::Responses)
    }
}

/// What the caller keeps: the position in each list, and the responses handed out in a row while the other list waited.
#[derive(Clone, Copy, PartialEq, Eq, Debug, Default)]
pub struct Feed {
    pub response: usize,
    pub other: usize,
    pub run: u32,
}

/// What an ask hands out: a record and its list, or nothing where both are empty, and the feed to ask with next.
#[derive(Clone, Copy, PartialEq, Eq, Debug)]
pub struct Handed<'a> {
    pub list: Option<Waiting>,
    pub record: &'a [u8],
    pub feed: Feed,
}

/// A refusal, and the list at fault if it is one.
#[derive(Clone, Copy, PartialEq, Eq, Debug)]
pub struct Refused {
    pub list: Option<Waiting>,
    pub refusal: Refusal,
}

impl From<Refusal> for Refused {
    /// A refusal that names neither list.
    fn from(refusal: Refusal) -> Refused {
        Refused { list: None, refusal }
    }
}

impl Feed {
    /// The feed of a host's three numbers.
    fn from_numbers(numbers: &[u32]) -> Feed {
        Feed { response: numbers[0] as usize, other: numbers[1] as usize, run: numbers[2] }
    }

    /// The host's three numbers.
    fn to_numbers(self) -> [u32; NUMBERS] {
        [self.response as u32, self.other as u32, self.run]
    }

    /// Whether no position is past its list's end and the run is at most four.
    fn is_valid(&self, responses: &[u8], others: &[u8]) -> bool {
        self.response <= responses.len() && self.other <= others.len() && self.run <= LONGEST_RUN
    }

    /// The list that is due: the responses, but the others after four responses in a row while they waited.
    fn due(&self, responses: &[u8], others: &[u8]) -> Option<Waiting> {
        let responses_wait = self.response < responses.len();
        let others_wait = self.other < others.len();
        if others_wait && (!responses_wait || self.run == LONGEST_RUN) {
            Some(Waiting::Others)
        } else {
            responses_wait.then_some(Waiting::Responses)
        }
    }
}

/// Asks for the next record, with causes 19, 18 and 17 in this order.
pub fn ask<'a>(format: u32, feed: &Feed, responses: &'a [u8], others: &'a [u8]) -> Result<Handed<'a>, Refused> {
    let Feed { response, other, run } = *feed;
    require(Format::from_number(format).is_some(), NOT_VALID, 0)?;
    require(feed.is_valid(responses, others), NOT_VALID, 0)?;
    require(responses.len() <= LIST && others.len() <= LIST, TOO_LONG, 0)?;
    let list = feed.due(responses, others);
    let (record, feed) = match list {
        None => (&[][..], Feed { response, other, run: 0 }),
        Some(Waiting::Responses) => {
            let record = record_at(Waiting::Responses, responses, response)?;
            let run = if other < others.len() { run + 1 } else { 0 };
            (record, Feed { response: response + record.len(), other, run })
        }
        Some(Waiting::Others) => {
            let record = record_at(Waiting::Others, others, other)?;
            (record, Feed { response, other: other + record.len(), run: 0 })
        }
    };
    Ok(Handed { list, record, feed })
}

/// The record at a position of a list, its size number included; a broken one or one of the other list is cause 17.
fn record_at(list: Waiting, bytes: &[u8], at: usize) -> Result<&[u8], Refused> {
    let wrong = Refused { list: Some(list), refusal: refusal(BROKEN, at) };
    let (message, len) = read_record(&bytes[at..]).ok_or(wrong)?;
    let belongs = Kind::of(message).is_some_and(|kind| list.takes(kind));
    belongs.then_some(&bytes[at..at + len]).ok_or(wrong)
}

/// Asks for a host that lends room of so many bytes, with cause 2 between 19 and 18.
fn ask_with_room<'a>(
    format: u32,
    numbers: &[u32],
    responses: &'a [u8],
    others: &'a [u8],
    room_len: usize,
) -> Result<Handed<'a>, Refused> {
    require(numbers.len() == NUMBERS, NOT_VALID, 0)?;
    let feed = Feed::from_numbers(numbers);
    match ask(format, &feed, responses, others) {
        Err(refused) if refused.refusal.cause == NOT_VALID => Err(refused),
        _ if room_len < LEAST_ROOM => Err(refusal(ROOM, 0).into()),
        answer => answer,
    }
}

/// The host's ask: the record goes to the front of the room and the next feed to the numbers; a refusal changes neither.
pub fn feed(format: u32, numbers: &mut [u32], responses: &[u8], others: &[u8], room: &mut [u8]) -> u32 {
    match ask_with_room(format, numbers, responses, others, room.len()) {
        Err(Refused { list, refusal }) => code(refusal.cause, list, refusal.place as usize),
        Ok(Handed { list, record, feed }) => {
            numbers.copy_from_slice(&feed.to_numbers());
            room[..record.len()].copy_from_slice(record);
            code(0, list, record.len())
        }
    }
}

/// An answer as the host's number: cause, list, and the record's bytes or the place.
fn code(cause: u32, list: Option<Waiting>, n: usize) -> u32 {
    let list = match list {
        None => 0,
        Some(Waiting::Responses) => 1,
        Some(Waiting::Others) => 2,
    };
    cause * 16_777_216 + list * 65_536 + n as u32
}
