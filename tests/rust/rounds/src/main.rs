//! Counts how often the zero test goes round over an all-zero container, in every public entry that one is handed to and from every
//! state that carries a message, and fails above the bound of K2.

mod count;
mod states;

#[allow(warnings)]
mod bench {
    include!(concat!(env!("OUT_DIR"), "/bench.rs"));
}

use bench::container::Grant;
use bench::host::c2c_check;
use bench::ledger::Ledger;
use bench::logs::{LogReader, LogVerdict};
use bench::reader::{Answer as Reading, JudgeAnswer, Reader};
use bench::slices::is_zero;
use bench::writer::{Answer as Filling, Writer};
use count::count;
use model::layout::{CONTAINER, PART};
use model::ledger::NUMBERS;
use model::reader::LEAST_ROOM;
use states::{ledgers, readers};

/// The most rounds that K2 allows.
const BOUND: usize = 64;

/// The longest part that the zero test is tried on alone.
const LONGEST: usize = 1024;

const IDLE: [u8; CONTAINER] = [0; CONTAINER];

/// The rounds that one call of the zero test makes over `n` zeros: one for each sixteen, or part of sixteen, before the last sixteen.
fn rounds_over(n: usize) -> usize {
    n.saturating_sub(16).div_ceil(16)
}

/// The rounds of a call that accepts.
fn accepted(call: impl FnOnce() -> bool) -> usize {
    let (rounds, accepts) = count(call);
    assert!(accepts, "an all-zero container is refused");
    rounds
}

fn check(format: u32) -> usize {
    accepted(|| c2c_check(format, &IDLE, &mut [0; LEAST_ROOM]) == 0)
}

fn judge(reader: Reader) -> usize {
    accepted(|| matches!(reader.judge(&IDLE).answer, JudgeAnswer::Accepted { .. }))
}

fn read(reader: Reader) -> usize {
    accepted(|| matches!(reader.read(&IDLE, &mut [0; LEAST_ROOM]).answer, Reading::Accepted { .. }))
}

fn audit(ledger: Ledger, direction: u8) -> usize {
    accepted(|| ledger.audit(direction.into(), &IDLE).answer.is_ok())
}

/// An entry of an all-zero container, as lists and logs have it.
fn entry(direction: u8) -> Vec<u8> {
    [&[direction], &IDLE[..]].concat()
}

fn audit_entries(ledger: Ledger, direction: u8) -> usize {
    accepted(|| ledger.audit_entries(&entry(direction), 1).answer.is_ok())
}

/// The one entry of a log behind a configuration of one byte a number.
fn consume(ledger: Ledger, direction: u8) -> usize {
    let log = LogReader { ledger, entries: 0, offset: NUMBERS as u64 };
    accepted(|| matches!(log.consume(&entry(direction), true).outcome, Some(LogVerdict::Accepted { .. })))
}

/// An all-zero container filled from an empty list, with so many granules owed.
fn fill(format: u32, owed: usize) -> usize {
    let grant = Grant { shc: false, rp: 0, req: 0, rsp: 0, snp: 0, dat: 0 };
    let writer = Writer { format, tail: [0; PART], len: 20 * owed };
    accepted(|| matches!(writer.fill(&[], grant, &mut IDLE.clone()).answer, Filling::Accepted { .. }))
}

/// The counts of an entry from every ledger, in both directions.
fn from_ledgers(format: u32, rounds: fn(Ledger, u8) -> usize) -> Vec<usize> {
    ledgers(format).into_iter().flat_map(|ledger| [rounds(ledger, 0), rounds(ledger, 1)]).collect()
}

/// The counts of an entry in a format, the one from the fresh state first.
type Rounds = fn(u32) -> Vec<usize>;

const ENTRIES: [(&str, Rounds); 7] = [
    ("c2c_check", |format| vec![check(format)]),
    ("Reader::judge", |format| readers(format).into_iter().map(judge).collect()),
    ("Reader::read", |format| readers(format).into_iter().map(read).collect()),
    ("Ledger::audit", |format| from_ledgers(format, audit)),
    ("Ledger::audit_entries, one entry", |format| from_ledgers(format, audit_entries)),
    ("LogReader::consume, one entry", |format| from_ledgers(format, consume)),
    ("Writer::fill", |format| (0..=5).map(|owed| fill(format, owed)).collect()),
];

fn main() {
    for n in 0..=LONGEST {
        let (rounds, answer) = count(|| is_zero(&vec![0; n]));
        assert!(answer && rounds == rounds_over(n), "{rounds} rounds over {n} bytes, not {}", rounds_over(n));
    }
    println!("rounds of the zero test over an all-zero container: from the fresh state, and the most from any");
    println!("{:<34} {:>6} {:>6} {:>8}", "entry", "X", "Y", "calls");
    for (name, rounds) in ENTRIES {
        let (x, y) = (rounds(0), rounds(1));
        let most = |counts: &[usize]| counts.iter().copied().max().unwrap_or_default();
        let shown = |counts: &[usize]| format!("{}, {}", counts[0], most(counts));
        println!("{name:<34} {:>6} {:>6} {:>8}", shown(&x), shown(&y), x.len() + y.len());
        assert!(most(&x).max(most(&y)) <= BOUND, "{name}: more than {BOUND} rounds");
    }
}
