//! Compares the proved code with the model on random inputs. Usage:
//! differential [--seed N] [--long] [--data DIR] [--programs DIR] [--audit PATH]

mod feeds;
mod interleavings;
mod logs;
mod make;
mod programs;
mod proved;
mod random;
mod tally;
mod vectors;

use std::array::from_fn;
use std::path::Path;
use std::process::ExitCode;
use std::time::Instant;

use model::cause::{Refusal, BROKEN, HEADER_PLACE, MISSING_GRANT_POOL, MISSING_POOL, NOT_VALID};
use model::layout::{Format, Grant, CONTAINER, GRANULES};
use model::ledger::{Ledger, DIRECTIONS, POOLS};
use model::list::{check, write_list, LIST};
use model::log::{verdict, Verdict};
use model::order::is_returned;
use model::reader::LEAST_ROOM;
use model::{reader, writer};

use crate::random::Random;
use crate::tally::{hex, In, Tally};
use crate::vectors::Outcome;

const CONTAINERS: usize = 400_000;
const LISTS: usize = 50_000;
const PACKINGS: usize = 5_000;
const LOGS: usize = 15_000;
const INTERLEAVED: usize = 10_000;
const PAIRS: usize = 2_000;
const BENEATH: usize = 500;
const SMALL: [usize; 2] = [5, 11];
const RUNS: usize = 500;
const ASKS: usize = 20_000;
const AUDITED: usize = 5;
const LONGER: usize = 10;
const CAUSES: [u32; 18] = [1, 2, 3, 4, 5, 6, 7, 8, 9, 10, 11, 12, 13, 14, 15, 16, 19, 21];

/// The causes that logs must meet beside those of their entries.
const LOG_CAUSES: [u32; 2] = [BROKEN, NOT_VALID];

/// The causes that logs must meet at every place, each with its last place.
const LAST_PLACES: [(u32, usize); 2] = [(MISSING_POOL, GRANULES - 1), (MISSING_GRANT_POOL, HEADER_PLACE)];

/// The report of numbers that are no configuration, or of no direction or pool.
const REFUSED_REPORT: u64 = (NOT_VALID as u64) << 48;

/// What the run was asked for.
struct Options {
    seed: u64,
    times: usize,
    data: String,
    programs: Option<String>,
    audit: Option<String>,
}

/// The options of the command line.
fn options() -> Options {
    let mut options = Options { seed: 1, times: 1, data: "tests/vectors".into(), programs: None, audit: None };
    let mut words = std::env::args().skip(1);
    while let Some(word) = words.next() {
        let mut value = || words.next().unwrap_or_else(|| panic!("{word} needs a value"));
        match word.as_str() {
            "--seed" => options.seed = value().parse().expect("a seed is a number"),
            "--long" => options.times = LONGER,
            "--data" => options.data = value(),
            "--programs" => options.programs = Some(value()),
            "--audit" => options.audit = Some(value()),
            _ => panic!("unknown option {word}"),
        }
    }
    options
}

fn main() -> ExitCode {
    let options = options();
    let started = Instant::now();
    let mut random = Random::new(options.seed);
    let mut tally = Tally::default();
    let vectors = run_vectors(&options.data);
    for _ in 0..CONTAINERS * options.times {
        compare_container(&mut random, &mut tally);
    }
    for _ in 0..LISTS * options.times {
        compare_fill(&mut random, &mut tally);
    }
    for _ in 0..PACKINGS * options.times {
        compare_packing(&mut random, &mut tally);
    }
    for n in 0..LOGS * options.times {
        compare_log(&mut random, &mut tally, n, options.audit.as_deref());
    }
    for _ in 0..INTERLEAVED * options.times {
        compare_interleavings(&mut random, &mut tally);
    }
    if let Some(programs) = &options.programs {
        for _ in 0..RUNS * options.times {
            compare_programs(&mut random, &mut tally, programs);
        }
    }
    feeds::compare(&mut random, &mut tally, ASKS * options.times);
    report(&tally, options.seed, started);
    ExitCode::from(u8::from(!is_complete(&tally) || tally.differences + vectors.differences > 0))
}

/// Whether the run met all that it is to meet; prints what is missing.
fn is_complete(tally: &Tally) -> bool {
    let missed: Vec<u32> = CAUSES.into_iter().filter(|&cause| !tally.has_met(cause)).collect();
    if !missed.is_empty() {
        println!("causes not met: {missed:?}");
    }
    let unmet: Vec<u32> = LOG_CAUSES.into_iter().filter(|&cause| !tally.has_met_in(In::Log, cause)).collect();
    if !unmet.is_empty() {
        println!("causes not met in logs: {unmet:?}");
    }
    let partly: Vec<(u32, usize)> =
        LAST_PLACES.into_iter().filter(|&(cause, last)| tally.count_places(cause, last).contains(&0)).collect();
    if !partly.is_empty() {
        println!("causes not met at every place up to their last: {partly:?}");
    }
    let rare: Vec<usize> = SMALL.into_iter().filter(|&g| tally.beneath[g] < BENEATH).collect();
    if !rare.is_empty() {
        println!("fewer than {BENEATH} records beneath longer messages in granules {rare:?}");
    }
    if tally.pairs < PAIRS {
        println!("fewer than {PAIRS} pairs of interleavings");
    }
    let fed = feeds::is_complete(tally);
    missed.is_empty() && unmet.is_empty() && partly.is_empty() && rare.is_empty() && tally.pairs >= PAIRS && fed
}

/// Runs the vector files against the model.
fn run_vectors(data: &str) -> Outcome {
    let mut outcomes = vec![
        ("check", vectors::check_lines(&format!("{data}/check.tsv"))),
        ("write", vectors::write_lines(&format!("{data}/write.tsv"))),
        ("feeds", vectors::feed_lines(&format!("{data}/feeds.tsv"))),
    ];
    let logs = format!("{data}/logs.tsv");
    if Path::new(&logs).exists() {
        outcomes.push(("logs", vectors::log_lines(&logs)));
    }
    let mut sum = Outcome::default();
    for (name, outcome) in outcomes {
        println!(
            "model, {name}: {} vectors, {} too large, {} differences",
            outcome.run, outcome.left, outcome.differences
        );
        sum.run += outcome.run;
        sum.left += outcome.left;
        sum.differences += outcome.differences;
    }
    sum
}

/// Prints the counts of the run.
fn report(tally: &Tally, seed: u64, started: Instant) {
    tally.print_table();
    for (cause, last) in LAST_PLACES {
        println!("places of {cause}: 0 to {last} met {:?} times", tally.count_places(cause, last));
    }
    let [containers, lists, logs, asks] = tally.compared;
    println!(
        "packing: {} records beneath in G5, {} in G11, {} lists packed whole, {} in another order",
        tally.beneath[5], tally.beneath[11], tally.packings, tally.reordered
    );
    let [responses, others] = tally.waits;
    println!("feeding: {asks} asks, longest waits {others} and {responses}, {} records handed out", tally.handed);
    println!(
        "differential: seed {seed}, {containers} containers, {lists} lists, {logs} logs of {} entries, {} pairs of interleavings, {} program runs, {} differences, {} s",
        tally.entries,
        tally.pairs,
        tally.runs,
        tally.differences,
        started.elapsed().as_secs()
    );
}

/// A random format, sometimes not valid.
fn format_number(random: &mut Random) -> u32 {
    if random.once_in(200) {
        random.pick(&[2, 3, 255, 256, u32::MAX])
    } else {
        random.below(2) as u32
    }
}

/// A random container of a format: one that keeps the rules, one that is damaged, or rubbish.
fn random_container(random: &mut Random, format: Format) -> Vec<u8> {
    let mut bytes = make::fresh_container(random, format).to_vec();
    match random.below(20) {
        0 => bytes = make::body(random, CONTAINER),
        1..=6 => {}
        _ => {
            for _ in 0..1 + random.below(3) {
                make::damage(random, format, &mut bytes);
            }
        }
    }
    if random.once_in(200) {
        bytes.resize(random.pick(&[0, 1, 255, 257, 512]), 0);
    }
    bytes
}

/// Compares the judging and the check of one container.
fn compare_container(random: &mut Random, tally: &mut Tally) {
    let number = format_number(random);
    let format = Format::from_number(number).unwrap_or(Format::X);
    let container = random_container(random, format);
    let expected = reader::judge_fresh(number, &container);
    let judged = proved::judge(number, &container);
    if judged != expected {
        tally.differ(&format!("c2c_judge, format {number}"), &container, &show(expected), &show(judged));
    }
    let room_len = if random.once_in(100) {
        random.pick(&[0, 1, 100, LEAST_ROOM - 1])
    } else {
        random.pick(&[LEAST_ROOM, LEAST_ROOM + 1, 400])
    };
    let filler = random.byte();
    let mut room = vec![filler; room_len];
    let mut room_proved = room.clone();
    let expected = reader::check(number, &container, &mut room);
    let checked = proved::check(number, &container, &mut room_proved);
    if checked != expected || room != room_proved {
        let model = format!("{} {}", show(expected), hex(&room));
        let proved = format!("{} {}", show(checked), hex(&room_proved));
        tally.differ(&format!("c2c_check, format {number}, room {room_len}"), &container, &model, &proved);
    }
    let refused = (expected != 0).then(|| Refusal { cause: expected / 65_536, place: u64::from(expected % 65_536) });
    tally.count(In::Container, refused);
}

/// An answer of the host's check in words.
fn show(answer: u32) -> String {
    match answer {
        0 => "accepted".into(),
        _ => format!("cause {} place {}", answer / 65_536, answer % 65_536),
    }
}

/// Compares the fill of one container.
fn compare_fill(random: &mut Random, tally: &mut Tally) {
    let number = format_number(random);
    let tail = make::tail(random);
    let grant = writer_grant(random);
    let bound = make::list_bound(random);
    let mut list = make::list(random, bound);
    if random.once_in(4) {
        make::damage_list(random, &mut list);
    }
    if random.once_in(100) {
        list.resize(random.pick(&[LIST, LIST + 1, 5_000]), 0);
    }
    let len = if random.once_in(100) { random.pick(&[0, 255, 257]) } else { CONTAINER };
    let filler = random.byte();
    let mut container = vec![filler; len];
    let mut next = tail;
    let answer = proved::fill(number, &mut next, grant, &list, &mut container);
    let expected = writer::fill(number, &tail, grant, &list, len);
    let same = match &expected {
        Err(r) => {
            let untouched = next.bytes == tail.bytes && container == vec![filler; len];
            answer == (u64::from(r.cause) << 32) + r.place && untouched
        }
        Ok(filled) => {
            let wanted = (filled.used * 256 + filled.tail.len) as u64;
            answer == wanted && next.bytes == filled.tail.bytes && container == filled.container
        }
    };
    if !same {
        let what = format!("c2c_fill, format {number}, tail {} of {}, {grant:?}", tail.len, hex(&tail.bytes));
        let proved = format!("{answer} tail {} container {}", hex(&next.bytes), hex(&container));
        tally.differ(&what, &list, &format!("{expected:?}"), &proved);
    }
    for g in expected.iter().flat_map(|filled| &filled.beneath) {
        tally.beneath[*g] += 1;
    }
    tally.count(In::List, expected.err());
}

/// Compares the containers of a whole list, and the messages read out of them with those of the list.
fn compare_packing(random: &mut Random, tally: &mut Tally) {
    let number = random.below(2) as u32;
    let format = Format::from_number(number).expect("the format is valid");
    let bound = make::list_bound(random);
    let list = make::list(random, bound);
    let expected = writer::pack(number, &list).expect("the list is right");
    let packed = proved::pack(number, &list);
    if packed != expected {
        tally.differ(&format!("packing, format {number}"), &list, &hex(&expected.concat()), &hex(&packed.concat()));
    }
    let records = check(&list).expect("the list is right");
    let messages: Vec<Vec<u8>> = records.into_iter().map(|record| record.message).collect();
    let (read, _) = programs::read(format, &packed);
    if !is_returned(format, &messages, &read) {
        let what = format!("the messages read, format {number}");
        tally.differ(&what, &list, &hex(&write_list(&messages)), &hex(&write_list(&read)));
    }
    tally.packings += 1;
    tally.reordered += usize::from(read != messages);
}

/// A grant for the writer: often none, sometimes wrong.
fn writer_grant(random: &mut Random) -> Grant {
    if random.once_in(2) {
        return Grant::default();
    }
    let mut grant = make::grant(random);
    if random.once_in(20) {
        grant.shared = random.once_in(2);
        grant.plane = random.byte();
    }
    grant
}

/// What the model's ledger says of a log's entries, up to the first refusal.
fn run_model(log: &logs::Log) -> proved::Audit {
    let mut ledger = match Ledger::from_numbers(&log.numbers) {
        Ok(ledger) => ledger,
        Err(Refusal { cause, place }) => {
            return proved::Audit {
                cause,
                place,
                accepted: 0,
                used: 0,
                reports: [[REFUSED_REPORT; POOLS]; DIRECTIONS],
            };
        }
    };
    let (mut accepted, mut used, mut refused) = (0, 0, None);
    for entry in &log.entries {
        match ledger.audit(u32::from(entry.direction), &entry.container) {
            Ok(next) => ledger = next,
            Err(refusal) => {
                refused = Some(refusal);
                break;
            }
        }
        accepted += 1;
        used += entry.bytes().len();
    }
    let report = |direction, pool| (ledger.held(direction, pool) << 32) + ledger.open(direction, pool);
    proved::Audit {
        cause: refused.map_or(0, |r| r.cause),
        place: refused.map_or(0, |r| r.place),
        accepted,
        used,
        reports: from_fn(|direction| from_fn(|pool| report(direction, pool))),
    }
}

/// Compares the audit of one log, as entries and, where a program is given, as bytes fed in parts.
fn compare_log(random: &mut Random, tally: &mut Tally, n: usize, program: Option<&str>) {
    let log = logs::log(random);
    let expected = run_model(&log);
    let audited = proved::audit(&log.numbers, &log.entry_bytes());
    let mut bytes = log.bytes();
    let said = verdict(&bytes);
    if audited != expected {
        let what = format!("c2c_audit, {} numbers, cut entry {}", log.numbers.len(), hex(&log.cut));
        tally.differ(&what, &bytes, &format!("{expected:?}"), &format!("{audited:?}"));
    }
    compare_report(random, tally, &log);
    tally.entries += expected.accepted;
    tally.count(In::Log, said.refused);
    if log.is_valid() {
        compare_verdict(tally, &log, said, &audited);
    }
    if random.once_in(4) {
        logs::damage_bytes(random, &mut bytes);
    }
    if let (Some(program), 0) = (program, n % AUDITED) {
        let part = programs::PARTS[n / AUDITED % programs::PARTS.len()];
        compare_audit(tally, program, &bytes, part);
    }
}

/// Compares the report of no direction or no pool.
fn compare_report(random: &mut Random, tally: &mut Tally, log: &logs::Log) {
    let (direction, pool) = if random.once_in(2) {
        (DIRECTIONS + random.below(4), random.below(POOLS))
    } else {
        (random.below(DIRECTIONS), POOLS + random.below(7))
    };
    let report = proved::report(&log.numbers, &log.entry_bytes(), direction, pool);
    if report != REFUSED_REPORT {
        let what = format!("c2c_audit_report, direction {direction}, pool {pool}");
        tally.differ(&what, &log.bytes(), &REFUSED_REPORT.to_string(), &report.to_string());
    }
}

/// Compares the model's verdict on a log with the audit of its entries: an entry that is cut short is refused in the log, and left over here.
fn compare_verdict(tally: &mut Tally, log: &logs::Log, said: Verdict, audited: &proved::Audit) {
    let behind = (log.number_bytes().len() + audited.used) as u64;
    let left = (!log.cut.is_empty() && audited.cause == 0).then_some(Refusal { cause: BROKEN, place: behind });
    let refused = (audited.cause != 0).then_some(Refusal { cause: audited.cause, place: audited.place }).or(left);
    if (said.accepted as usize, said.refused) != (audited.accepted, refused) {
        tally.differ("c2c_audit of a log", &log.bytes(), &said.to_string(), &format!("{audited:?}"));
    }
}

/// Compares what the audit program prints for a log fed in parts.
fn compare_audit(tally: &mut Tally, program: &str, bytes: &[u8], part: usize) {
    let expected = format!("{}\n", verdict(bytes));
    let printed = programs::run(program, bytes, part);
    tally.runs += 1;
    if printed != expected.as_bytes() {
        let what = format!("audit, parts of {part}");
        tally.differ(&what, bytes, expected.trim(), String::from_utf8_lossy(&printed).trim());
    }
}

/// Compares what two accepted orders of the same containers end with: the proved code by its reports, the model by its ledger.
fn compare_interleavings(random: &mut Random, tally: &mut Tally) {
    let Some([one, other]) = interleavings::pair(random) else { return };
    tally.pairs += 1;
    let expected = run_model(&one.log);
    for order in [&one, &other] {
        let audited = proved::audit(&order.log.numbers, &order.log.entry_bytes());
        if audited != expected {
            let what = "c2c_audit of one of two orders";
            tally.differ(what, &order.log.bytes(), &format!("{expected:?}"), &format!("{audited:?}"));
        }
    }
    if one.ledger != other.ledger {
        let [first, second] = [&one, &other].map(|order| format!("model's ledger {:?}", order.ledger));
        tally.differ("the model on two orders", &other.log.bytes(), &first, &second);
    }
}

/// Compares `pack` on a right list, and `unpack` on its containers, of which one may be damaged.
fn compare_programs(random: &mut Random, tally: &mut Tally, programs: &str) {
    let number = random.below(2) as u32;
    let format = Format::from_number(number).expect("the format is valid");
    let bound = make::list_bound(random);
    let list = make::list(random, bound);
    let mut containers = writer::pack(number, &list).expect("the list is right");
    let input = [&[number as u8], &list[..]].concat();
    let part = random.pick(&programs::PARTS);
    let packed = programs::run(&format!("{programs}/pack"), &input, part);
    tally.runs += 2;
    if packed != containers.concat() {
        tally.differ("pack", &input, &hex(&containers.concat()), &hex(&packed));
    }
    if random.once_in(2) && !containers.is_empty() {
        let at = random.below(containers.len());
        make::damage(random, format, &mut containers[at]);
    }
    let input = [&[number as u8], &containers.concat()[..]].concat();
    let printed = programs::run(&format!("{programs}/unpack"), &input, part);
    let expected = programs::unpacked(format, &containers);
    if printed != expected.as_bytes() {
        tally.differ("unpack", &input, &expected, &String::from_utf8_lossy(&printed));
    }
}
