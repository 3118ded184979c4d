//! Random logs: two ends that keep the rules for pools, most of the time.

use model::layout::{Format, Grant, CONTAINER, GRANULES};
use model::ledger::{grant_data_pool, grant_request_pool, payments, Ledger, Receiver, NUMBERS, POOLS, RSP, SNP};
use model::list::write_number;
use model::message::{grant, Charge, Kind, KINDS};

use crate::make;
use crate::random::Random;

/// The least bytes of an entry: a number of one byte and the container.
const ENTRY: usize = 1 + CONTAINER;

/// The most messages that are drawn to find one to a missing pool.
const DRAWN: usize = 16;

/// One container of one direction, at some time.
#[derive(Clone)]
pub struct Entry {
    pub direction: u8,
    pub ticks: u32,
    pub container: [u8; CONTAINER],
}

impl Entry {
    /// The entry as a log has it.
    pub fn bytes(&self) -> Vec<u8> {
        let mut out = Vec::new();
        write_number(2 * self.ticks + u32::from(self.direction), &mut out);
        out.extend_from_slice(&self.container);
        out
    }
}

/// A configuration, most of the time of 33 numbers, and entries.
pub struct Log {
    pub numbers: Vec<u32>,
    pub entries: Vec<Entry>,
    /// The bytes of an entry that is cut short behind the others.
    pub cut: Vec<u8>,
}

impl Log {
    /// The numbers as a log has them.
    pub fn number_bytes(&self) -> Vec<u8> {
        let mut out = Vec::new();
        for &number in &self.numbers {
            write_number(number, &mut out);
        }
        out
    }

    /// The entries as a log has them, with the one that is cut short.
    pub fn entry_bytes(&self) -> Vec<u8> {
        let mut out: Vec<u8> = self.entries.iter().flat_map(Entry::bytes).collect();
        out.extend_from_slice(&self.cut);
        out
    }

    /// The log as the audit program reads it.
    pub fn bytes(&self) -> Vec<u8> {
        [self.number_bytes(), self.entry_bytes()].concat()
    }

    /// Whether the configuration is valid.
    pub fn is_valid(&self) -> bool {
        Ledger::from_numbers(&self.numbers).is_ok()
    }
}

/// A random log.
pub fn log(random: &mut Random) -> Log {
    let mut log = Log { numbers: configuration(random), entries: Vec::new(), cut: Vec::new() };
    let count = if random.once_in(20) { random.below(200) } else { random.below(40) };
    let sloppy = random.pick(&[30, 300, 3_000, 1_000_000]);
    let damaged = random.pick(&[3, 20, 100, 1_000_000]);
    let missing = if random.once_in(10) { 5 } else { 1_000_000 };
    let mut ledger = Ledger::from_numbers(&log.numbers).expect("the configuration is valid");
    for _ in 0..count {
        let direction = random.byte_below(2);
        let own = usize::from(direction);
        let mut container = if random.once_in(missing) {
            entry_to_missing_pools(random, &ledger, own)
        } else {
            entry(random, &ledger, own, sloppy)
        };
        if random.once_in(damaged) {
            make::damage(random, ledger.format, &mut container);
        }
        let ticks = random.pick(&[0, 1, 63, 64, 8_191, 8_192, 2_147_483_647]);
        log.entries.push(Entry { direction, ticks, container });
        match ledger.audit(u32::from(direction), &container) {
            Ok(next) => ledger = next,
            Err(_) if random.once_in(2) => break,
            Err(_) => {}
        }
    }
    if random.once_in(25) {
        damage_configuration(random, &mut log.numbers);
    }
    if random.once_in(50) {
        log.numbers.resize(random.pick(&[NUMBERS - 1, NUMBERS + 1]), 0);
    }
    if random.once_in(8) {
        let len = 1 + random.below(ENTRY - 1);
        log.cut = make::body(random, len);
    }
    log
}

/// Damages a log's bytes in one random way.
pub fn damage_bytes(random: &mut Random, bytes: &mut Vec<u8>) {
    let front = random.below(bytes.len().min(60));
    match random.below(5) {
        0 => bytes.truncate(front),
        1 => bytes.truncate(random.below(bytes.len())),
        2 => bytes[front] = random.byte(),
        3 => bytes
            .splice(front..front, random.pick(&[&[0x80, 0][..], &[255; 6], &[0x81, 0x80, 0], &[9]]).iter().copied())
            .for_each(drop),
        _ => {
            let at = random.below(bytes.len());
            bytes[at] = random.byte();
        }
    }
}

/// A valid configuration.
fn configuration(random: &mut Random) -> Vec<u32> {
    let mut numbers = vec![random.below(2) as u32];
    for _ in 0..2 {
        let most = random.pick(&[2, 8, 60, 1_024, 1_024]);
        let mut receiver = Receiver {
            planes: 1 + random.below(8) as u32,
            push: u32::from(!random.once_in(4)),
            capacities: [0; POOLS],
        };
        for pool in 0..POOLS {
            let capacity = if random.once_in(9) { 0 } else { random.below(most) as u32 };
            receiver.capacities[pool] = if receiver.has_pool(pool) { capacity } else { 0 };
        }
        numbers.extend([receiver.planes, receiver.push]);
        numbers.extend(receiver.capacities);
    }
    numbers
}

/// Changes one number, often to one that is not valid.
fn damage_configuration(random: &mut Random, numbers: &mut [u32]) {
    numbers[random.below(NUMBERS)] = random.pick(&[0, 1, 2, 8, 9, 1_023, 1_024, u32::MAX]);
}

/// What an entry's sender and receiver may still do.
struct Limits {
    receiver: Receiver,
    other: Receiver,
    held: [u64; POOLS],
    room: [u64; POOLS],
    sloppy: usize,
}

/// A container that keeps the rules, with messages that have credits and grants that have slots, most of the time.
fn entry(random: &mut Random, ledger: &Ledger, own: usize, sloppy: usize) -> [u8; CONTAINER] {
    let opposite = 1 - own;
    let mut limits = Limits {
        receiver: ledger.receivers[own],
        other: ledger.receivers[opposite],
        held: [0; POOLS],
        room: [0; POOLS],
        sloppy,
    };
    for pool in 0..POOLS {
        limits.held[pool] = ledger.held(own, pool);
        let taken = ledger.held(opposite, pool) + ledger.open(opposite, pool);
        limits.room[pool] = u64::from(limits.other.capacities[pool]) - taken;
    }
    let format: Format = ledger.format;
    let grant = if random.once_in(4) { Grant::default() } else { limits.grant(random) };
    let kinds = make::palette(random);
    let carry = ledger.carries[own];
    make::container(random, format, &carry, grant, |random, _, legal| {
        limits.message(random, &make::chosen_beside(&grant, &kinds, legal))
    })
}

/// A container that keeps the rules of reading, with a message or a CrdtGrant to a missing pool at a drawn granule, if one is found, and
/// responses before it.
fn entry_to_missing_pools(random: &mut Random, ledger: &Ledger, own: usize) -> [u8; CONTAINER] {
    let (receiver, other) = (&ledger.receivers[own], &ledger.receivers[1 - own]);
    let place = random.below(GRANULES);
    let kinds = if random.once_in(2) { &[Kind::CrdtGrant][..] } else { &KINDS };
    let grant = if random.once_in(2) { make::grant(random) } else { Grant::default() };
    make::container(random, ledger.format, &ledger.carries[own], grant, |random, g, legal| {
        let legal = make::chosen_beside(&grant, if g < place { &[Kind::Resp] } else { kinds }, legal);
        let suits = |message: &Vec<u8>| g != place || !finds_pools(receiver, other, message);
        (0..DRAWN).find_map(|_| make::message_of(random, &legal).filter(suits))
    })
}

/// Whether a message finds its pools and, of a CrdtGrant, its grant those of the other receiver.
fn finds_pools(receiver: &Receiver, other: &Receiver, message: &[u8]) -> bool {
    let grants = Kind::of(message) == Some(Kind::CrdtGrant);
    receiver.is_payable(message) && (!grants || other.is_grantable(&grant(message)))
}

impl Limits {
    /// A grant that has slots, most of the time.
    fn grant(&mut self, random: &mut Random) -> Grant {
        if random.once_in(self.sloppy) {
            return make::grant(random);
        }
        let shared = random.once_in(2);
        let plane = if shared { 0 } else { random.below(self.other.planes as usize) as u8 };
        let mut grant = Grant { shared, plane, ..Grant::default() };
        grant.req = self.amount(random, grant_request_pool(&grant));
        grant.rsp = self.amount(random, RSP);
        grant.snp = self.amount(random, SNP);
        if self.other.has_data_pool(&grant) {
            grant.dat = self.amount(random, grant_data_pool(&grant));
        }
        grant
    }

    /// A number of credits of a pool, sometimes all and, sloppily, one too many.
    fn amount(&mut self, random: &mut Random, pool: usize) -> u8 {
        let most = self.room[pool].min(255);
        let mut amount = match random.below(3) {
            0 => 0,
            1 => most,
            _ => random.below(most as usize + 1) as u64,
        };
        if random.once_in(2 * self.sloppy) && most < 255 {
            amount = most + 1;
        }
        self.room[pool] = self.room[pool].saturating_sub(amount);
        amount as u8
    }

    /// Whether the credits held cover a payment, which names a pool as often as it pays a credit of it.
    fn covers(&self, payment: &[usize]) -> bool {
        payment.iter().all(|&pool| self.held[pool] >= payment.iter().filter(|&&paid| paid == pool).count() as u64)
    }

    /// A message of a legal kind that has credits, most of the time; none if none is found.
    fn message(&mut self, random: &mut Random, legal: &[Kind]) -> Option<Vec<u8>> {
        if legal.is_empty() {
            return None;
        }
        for _ in 0..4 {
            let kind = random.pick(legal);
            let mut message = make::message(random, kind);
            if kind == Kind::CrdtGrant {
                make::set_grant(&mut message, self.grant(random));
            }
            if random.once_in(3 * self.sloppy) {
                return Some(message);
            }
            if kind.charges().contains(&Charge::Req) {
                let plane = random.byte_below(self.receiver.planes as u8);
                message[0] = message[0] & 31 | plane << 5;
            }
            let pools = payments(&message);
            let pays = self.receiver.is_payable(&message) && self.covers(&pools);
            if pays || random.once_in(4 * self.sloppy) {
                for pool in pools {
                    self.held[pool] = self.held[pool].saturating_sub(1);
                }
                return Some(message);
            }
        }
        None
    }
}
