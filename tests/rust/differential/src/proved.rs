//! The proved code behind its C functions.

use std::array::from_fn;

use model::layout::{Grant, Part, CONTAINER, PART};
use model::ledger::{DIRECTIONS, POOLS};
use model::list::LIST;

const GRANT: usize = 6;
const REFUSED: u64 = 1 << 32;

extern "C" {
    fn c2c_check(format: u32, container: *const u8, container_len: usize, room: *mut u8, room_len: usize) -> u32;
    fn c2c_feed(
        format: u32,
        feed: *mut u32,
        feed_len: usize,
        responses: *const u8,
        responses_len: usize,
        others: *const u8,
        others_len: usize,
        room: *mut u8,
        room_len: usize,
    ) -> u32;
    fn c2c_judge(format: u32, container: *const u8, len: usize) -> u32;
    fn c2c_fill(
        format: u32,
        len: usize,
        tail: *mut u8,
        tail_len: usize,
        grant: *const u8,
        grant_len: usize,
        list: *const u8,
        list_len: usize,
        container: *mut u8,
        container_len: usize,
    ) -> u64;
    fn c2c_audit(numbers: *const u32, n: usize, entries: *const u8, len: usize) -> u32;
    fn c2c_audit_place(numbers: *const u32, n: usize, entries: *const u8, len: usize) -> u64;
    fn c2c_audit_count(numbers: *const u32, n: usize, entries: *const u8, len: usize) -> usize;
    fn c2c_audit_used(numbers: *const u32, n: usize, entries: *const u8, len: usize) -> usize;
    fn c2c_audit_report(
        numbers: *const u32,
        n: usize,
        entries: *const u8,
        len: usize,
        direction: u32,
        pool: u32,
    ) -> u64;
}

/// The host's check of one container.
pub fn check(format: u32, container: &[u8], room: &mut [u8]) -> u32 {
    // SAFETY: pointers and lengths come from slices that live through the call.
    unsafe { c2c_check(format, container.as_ptr(), container.len(), room.as_mut_ptr(), room.len()) }
}

/// The host's ask for the next record of two lists; feed and room change in place.
pub fn feed(format: u32, feed: &mut [u32], responses: &[u8], others: &[u8], room: &mut [u8]) -> u32 {
    // SAFETY: pointers and lengths come from slices that live through the call and do not overlap.
    unsafe {
        c2c_feed(
            format,
            feed.as_mut_ptr(),
            feed.len(),
            responses.as_ptr(),
            responses.len(),
            others.as_ptr(),
            others.len(),
            room.as_mut_ptr(),
            room.len(),
        )
    }
}

/// Judges one container from a fresh state.
pub fn judge(format: u32, container: &[u8]) -> u32 {
    // SAFETY: pointer and length come from a slice that lives through the call.
    unsafe { c2c_judge(format, container.as_ptr(), container.len()) }
}

/// Fills a container; the tail's bytes change in place, its length is in the answer.
pub fn fill(format: u32, tail: &mut Part, grant: Grant, list: &[u8], container: &mut [u8]) -> u64 {
    let grant = [u8::from(grant.shared), grant.plane, grant.req, grant.rsp, grant.snp, grant.dat];
    // SAFETY: pointers and lengths come from slices and arrays that live through the call and do not overlap.
    unsafe {
        c2c_fill(
            format,
            tail.len,
            tail.bytes.as_mut_ptr(),
            PART,
            grant.as_ptr(),
            GRANT,
            list.as_ptr(),
            list.len(),
            container.as_mut_ptr(),
            container.len(),
        )
    }
}

/// The containers that fills from fresh with zero grants make of a list, up to a refusal.
pub fn pack(format: u32, list: &[u8]) -> Vec<[u8; CONTAINER]> {
    let mut containers = Vec::new();
    let mut tail = Part::none();
    let mut rest = list;
    while (!rest.is_empty() || tail.len > 0) && containers.len() < LIST {
        let mut container = [0; CONTAINER];
        let answer = fill(format, &mut tail, Grant::default(), rest, &mut container);
        if answer >= REFUSED {
            break;
        }
        tail.len = answer as usize % 256;
        rest = &rest[answer as usize / 256..];
        containers.push(container);
    }
    containers
}

/// What the audit of entries gives up to the first refusal.
#[derive(Clone, PartialEq, Eq, Debug)]
pub struct Audit {
    pub cause: u32,
    pub place: u64,
    pub accepted: usize,
    /// The bytes of the entries accepted.
    pub used: usize,
    /// The report of each direction and pool.
    pub reports: [[u64; POOLS]; DIRECTIONS],
}

/// Audits entries as a log has them, of which the last may be cut short, from the fresh ledger of 33 numbers.
pub fn audit(numbers: &[u32], entries: &[u8]) -> Audit {
    let reports = from_fn(|direction| from_fn(|pool| report(numbers, entries, direction, pool)));
    let (n, len) = (numbers.len(), entries.len());
    let (numbers, entries) = (numbers.as_ptr(), entries.as_ptr());
    // SAFETY: pointers and lengths come from slices that live through the calls.
    unsafe {
        Audit {
            cause: c2c_audit(numbers, n, entries, len),
            place: c2c_audit_place(numbers, n, entries, len),
            accepted: c2c_audit_count(numbers, n, entries, len),
            used: c2c_audit_used(numbers, n, entries, len),
            reports,
        }
    }
}

/// Held times 2^32 plus open behind the entries accepted, of a direction and pool, or a cause times 2^48.
pub fn report(numbers: &[u32], entries: &[u8], direction: usize, pool: usize) -> u64 {
    let (direction, pool) = (direction as u32, pool as u32);
    // SAFETY: pointers and lengths come from slices that live through the call.
    unsafe { c2c_audit_report(numbers.as_ptr(), numbers.len(), entries.as_ptr(), entries.len(), direction, pool) }
}
