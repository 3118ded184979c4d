//! Numbers in seven-bit groups, records and lists.

use crate::cause::{refusal, require, Refusal, BROKEN, TOO_LONG};
use crate::message::Kind;

pub const LIST: usize = 4096;
const GROUPS: usize = 5;

/// The number at the front of the bytes and its length, unless it is broken.
pub fn read_number(bytes: &[u8]) -> Option<(u32, usize)> {
    let mut value = 0u64;
    for (n, &byte) in bytes.iter().take(GROUPS).enumerate() {
        value += u64::from(byte & 127) << (7 * n);
        if byte < 128 {
            let shortest = n == 0 || byte != 0;
            return if shortest { Some((u32::try_from(value).ok()?, n + 1)) } else { None };
        }
    }
    None
}

/// Appends a number in its shortest form.
pub fn write_number(mut number: u32, out: &mut Vec<u8>) {
    while number >= 128 {
        out.push((number % 128 + 128) as u8);
        number /= 128;
    }
    out.push(number as u8);
}

/// Appends a message as a record.
pub fn write_record(message: &[u8], out: &mut Vec<u8>) {
    write_number(message.len() as u32, out);
    out.extend_from_slice(message);
}

/// The messages as a list of records.
pub fn write_list(messages: &[Vec<u8>]) -> Vec<u8> {
    let mut out = Vec::new();
    for message in messages {
        write_record(message, &mut out);
    }
    out
}

/// A record's message and the list's bytes up to its end.
#[derive(Clone, PartialEq, Eq, Debug)]
pub struct Record {
    pub message: Vec<u8>,
    pub end: usize,
}

/// The message of the record at the front and the record's length, unless it is broken or wrong.
pub fn read_record(bytes: &[u8]) -> Option<(&[u8], usize)> {
    let (size, start) = read_number(bytes)?;
    let end = start.checked_add(size as usize)?;
    let message = bytes.get(start..end)?;
    let kind = Kind::of(message)?;
    let right = kind.size() == message.len() && kind.is_well_headed(message);
    right.then_some((message, end))
}

/// The records of a list, with causes 18 and 17.
pub fn check(list: &[u8]) -> Result<Vec<Record>, Refusal> {
    require(list.len() <= LIST, TOO_LONG, 0)?;
    records(list)
}

/// The records of a list of any length, with cause 17 at the first that is broken or wrong.
pub fn records(list: &[u8]) -> Result<Vec<Record>, Refusal> {
    let mut records = Vec::new();
    let mut offset = 0;
    while offset < list.len() {
        let (message, len) = read_record(&list[offset..]).ok_or(refusal(BROKEN, offset))?;
        offset += len;
        records.push(Record { message: message.to_vec(), end: offset });
    }
    Ok(records)
}
