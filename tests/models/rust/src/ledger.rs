//! The ledger: receivers, pools and the audit of entries.

use crate::cause::{
    refusal, require, Refusal, CONTAINER_LENGTH, HEADER_PLACE, MISSING_GRANT_POOL, MISSING_POOL, NOT_VALID,
    OVER_CAPACITY, OVER_GRANTED,
};
use crate::layout::{Format, Grant, Part, CONTAINER};
use crate::message::{grant, is_data_shared, is_shared, plane, Charge, Kind};
use crate::reader::{self, is_valid_carry, Reading};

pub const DIRECTIONS: usize = 2;
pub const POOLS: usize = 14;
pub const NUMBERS: usize = 1 + DIRECTIONS * (2 + POOLS);
pub const LARGEST_CAPACITY: u32 = 1023;

pub const SHARED_REQ: usize = 0;
pub const FIRST_PLANE: usize = 1;
pub const RSP: usize = 9;
pub const SNP: usize = 10;
pub const SHARED_DAT: usize = 11;
pub const DEDICATED_0: usize = 12;
pub const DEDICATED_1: usize = 13;

/// One number for each direction and pool.
pub type Table = [[u64; POOLS]; DIRECTIONS];

/// The receiver of one direction.
#[derive(Clone, Copy, PartialEq, Eq, Debug)]
pub struct Receiver {
    pub planes: u32,
    pub push: u32,
    pub capacities: [u32; POOLS],
}

impl Receiver {
    /// The receiver of sixteen numbers: planes, push and capacities.
    pub fn from_numbers(numbers: &[u32]) -> Receiver {
        let mut capacities = [0; POOLS];
        capacities.copy_from_slice(&numbers[2..]);
        Receiver { planes: numbers[0], push: numbers[1], capacities }
    }

    /// Whether planes, push and capacities are valid.
    pub fn is_valid(&self) -> bool {
        (1..=8).contains(&self.planes) && self.push <= 1 && (0..POOLS).all(|pool| self.is_capacity_valid(pool))
    }

    /// Whether a pool's capacity is at most 1,023, and 0 if the pool is missing.
    pub fn is_capacity_valid(&self, pool: usize) -> bool {
        let most = if self.has_pool(pool) { LARGEST_CAPACITY } else { 0 };
        self.capacities[pool] <= most
    }

    /// Whether the receiver takes push messages.
    pub fn has_push(&self) -> bool {
        self.push == 1
    }

    /// Whether a plane exists.
    pub fn has_plane(&self, plane: usize) -> bool {
        plane < self.planes as usize
    }

    /// Whether a pool exists.
    pub fn has_pool(&self, pool: usize) -> bool {
        match pool {
            SHARED_REQ | RSP | SNP | SHARED_DAT => true,
            DEDICATED_0 => self.has_push(),
            DEDICATED_1 => self.has_push() && self.planes >= 2,
            _ => self.has_plane(pool - FIRST_PLANE),
        }
    }

    /// Whether a message finds its pools, its plane even where shared credit pays, and push if it is a push message.
    pub fn is_payable(&self, message: &[u8]) -> bool {
        let Some(kind) = Kind::of(message) else { return true };
        let has_plane = !kind.charges().contains(&Charge::Req) || self.has_plane(plane(message));
        let has_push = !kind.is_push() || self.has_push();
        has_plane && has_push && payments(message).into_iter().all(|pool| self.has_pool(pool))
    }

    /// Whether a grant finds its plane, whatever its counts, and a pool for a DAT count that is not zero.
    pub fn is_grantable(&self, grant: &Grant) -> bool {
        let has_plane = grant.shared || self.has_plane(usize::from(grant.plane));
        has_plane && (grant.dat == 0 || self.has_data_pool(grant))
    }

    /// Whether there is a pool for a grant's DAT count.
    pub fn has_data_pool(&self, grant: &Grant) -> bool {
        grant.shared || self.has_push() && grant.plane <= 1
    }
}

/// Both receivers, what is carried, and the counts over the accepted entries.
#[derive(Clone, PartialEq, Eq, Debug)]
pub struct Ledger {
    pub format: Format,
    pub receivers: [Receiver; DIRECTIONS],
    pub carries: [Part; DIRECTIONS],
    pub granted: Table,
    pub begun: Table,
    pub finished: Table,
}

impl Ledger {
    /// The fresh ledger of a format and two receivers, unless they are not valid.
    pub fn fresh(format: u32, receivers: [Receiver; DIRECTIONS]) -> Result<Ledger, Refusal> {
        let format = Format::from_number(format).ok_or(refusal(NOT_VALID, 0))?;
        require(receivers.iter().all(Receiver::is_valid), NOT_VALID, 0)?;
        let zero = [[0; POOLS]; DIRECTIONS];
        let carries = [Part::none(); DIRECTIONS];
        Ok(Ledger { format, receivers, carries, granted: zero, begun: zero, finished: zero })
    }

    /// The fresh ledger of 33 numbers.
    pub fn from_numbers(numbers: &[u32]) -> Result<Ledger, Refusal> {
        require(numbers.len() == NUMBERS, NOT_VALID, 0)?;
        let (first, second) = numbers[1..].split_at(2 + POOLS);
        Ledger::fresh(numbers[0], [Receiver::from_numbers(first), Receiver::from_numbers(second)])
    }

    /// Granted minus begun.
    pub fn held(&self, direction: usize, pool: usize) -> u64 {
        self.granted[direction][pool] - self.begun[direction][pool]
    }

    /// Begun minus finished.
    pub fn open(&self, direction: usize, pool: usize) -> u64 {
        self.begun[direction][pool] - self.finished[direction][pool]
    }

    /// Whether receivers, carries and counts are a state that the audit may go on from.
    pub fn is_valid(&self) -> bool {
        (0..DIRECTIONS).all(|d| self.receivers[d].is_valid() && self.is_carry_right(d) && self.are_counts_right(d))
    }

    /// Whether a direction's carry is valid, payable and all that is open.
    fn is_carry_right(&self, d: usize) -> bool {
        let carry = &self.carries[d];
        if !is_valid_carry(carry) || !self.receivers[d].is_payable(carry.message()) {
            return false;
        }
        let owed = count_payments([carry.message()]);
        (0..POOLS).all(|p| self.finished[d][p] + owed[p] == self.begun[d][p])
    }

    /// Whether begun is at most granted, and granted at most capacity and finished, in every pool.
    fn are_counts_right(&self, d: usize) -> bool {
        (0..POOLS).all(|p| self.is_begun_granted(d, p) && self.is_granted_backed(d, p))
    }

    /// Whether begun is at most granted.
    fn is_begun_granted(&self, d: usize, pool: usize) -> bool {
        self.begun[d][pool] <= self.granted[d][pool]
    }

    /// Whether granted is at most capacity and finished.
    fn is_granted_backed(&self, d: usize, pool: usize) -> bool {
        self.granted[d][pool] <= u64::from(self.receivers[d].capacities[pool]) + self.finished[d][pool]
    }

    /// Audits one entry and answers the next ledger; a refusal leaves this one as it is.
    pub fn audit(&self, direction: u32, container: &[u8]) -> Result<Ledger, Refusal> {
        require(self.is_valid() && direction <= 1, NOT_VALID, 0)?;
        require(container.len() == CONTAINER, CONTAINER_LENGTH, 0)?;
        let own = direction as usize;
        let opposite = 1 - own;
        let reading = reader::judge(self.format, &self.carries[own], container)?;
        for start in &reading.started {
            require(self.receivers[own].is_payable(&start.message), MISSING_POOL, start.granule)?;
        }
        let grants = grants_of(&reading);
        for (place, grant) in &grants {
            require(self.receivers[opposite].is_grantable(grant), MISSING_GRANT_POOL, *place)?;
        }
        let mut next = self.clone();
        next.carries[own] = reading.carry;
        add(&mut next.begun[own], &count_payments(reading.started.iter().map(|start| &start.message[..])));
        add(&mut next.finished[own], &count_payments(reading.finished.iter().map(Vec::as_slice)));
        add(&mut next.granted[opposite], &count_grants(&grants));
        for pool in 0..POOLS {
            require(next.is_begun_granted(own, pool), OVER_GRANTED, pool)?;
        }
        for pool in 0..POOLS {
            require(next.is_granted_backed(opposite, pool), OVER_CAPACITY, pool)?;
        }
        Ok(next)
    }
}

/// The pools that a message pays, REQ before DAT, each as often as it pays a credit of it.
pub fn payments(message: &[u8]) -> Vec<usize> {
    match Kind::of(message) {
        Some(Kind::ReqS | Kind::ReqL) => vec![request_pool(message)],
        Some(kind @ (Kind::Resp | Kind::Resp2)) => vec![RSP; kind.responses()],
        Some(Kind::Snoop) => vec![SNP],
        Some(Kind::DataS | Kind::DataL) if is_shared(message) => vec![SHARED_DAT],
        Some(Kind::DataS | Kind::DataL) => vec![DEDICATED_0],
        Some(Kind::WrReqDataS | Kind::WrReqDataL) if is_data_shared(message) => vec![request_pool(message), SHARED_DAT],
        Some(Kind::WrReqDataS | Kind::WrReqDataL) => vec![request_pool(message), DEDICATED_1],
        _ => Vec::new(),
    }
}

/// The pool that a REQ charge goes to.
fn request_pool(message: &[u8]) -> usize {
    if is_shared(message) {
        SHARED_REQ
    } else {
        FIRST_PLANE + plane(message)
    }
}

/// The header's grant and then those of the CrdtGrants in granule order, each behind its place.
fn grants_of(reading: &Reading) -> Vec<(usize, Grant)> {
    let mut grants = vec![(HEADER_PLACE, reading.grant)];
    for start in &reading.started {
        if Kind::of(&start.message) == Some(Kind::CrdtGrant) {
            grants.push((start.granule, grant(&start.message)));
        }
    }
    grants
}

/// The pool of a grant's REQ count.
pub fn grant_request_pool(grant: &Grant) -> usize {
    if grant.shared {
        SHARED_REQ
    } else {
        FIRST_PLANE + usize::from(grant.plane)
    }
}

/// The pool of a grant's DAT count.
pub fn grant_data_pool(grant: &Grant) -> usize {
    match (grant.shared, grant.plane) {
        (true, _) => SHARED_DAT,
        (false, 0) => DEDICATED_0,
        (false, _) => DEDICATED_1,
    }
}

/// How often each pool is paid by messages.
fn count_payments<'a>(messages: impl IntoIterator<Item = &'a [u8]>) -> [u64; POOLS] {
    let mut counts = [0; POOLS];
    for pool in messages.into_iter().flat_map(payments) {
        counts[pool] += 1;
    }
    counts
}

/// How many credits of each pool are granted.
fn count_grants(grants: &[(usize, Grant)]) -> [u64; POOLS] {
    let mut counts = [0; POOLS];
    for (_, grant) in grants {
        counts[grant_request_pool(grant)] += u64::from(grant.req);
        counts[RSP] += u64::from(grant.rsp);
        counts[SNP] += u64::from(grant.snp);
        if grant.dat > 0 {
            counts[grant_data_pool(grant)] += u64::from(grant.dat);
        }
    }
    counts
}

/// Adds counts pool by pool.
fn add(to: &mut [u64; POOLS], counts: &[u64; POOLS]) {
    for pool in 0..POOLS {
        to[pool] += counts[pool];
    }
}
