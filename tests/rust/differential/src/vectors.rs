//! The lines of the vector files, run against the model.

use std::fs;

use model::cause::refusal;
use model::feeder::{ask, Feed, Refused, Waiting};
use model::layout::{Grant, Part, CONTAINER};
use model::log::verdict;
use model::reader::check;
use model::writer::fill;

const FILLER: u8 = 0xEE;
const LARGEST: usize = 1 << 26;

/// How many vectors were run, left out as too large, and different.
#[derive(Default)]
pub struct Outcome {
    pub run: usize,
    pub left: usize,
    pub differences: usize,
}

/// Runs a function over the fields of every line behind the column heads, which must be these; it says whether they agree, or nothing if
/// the line is left out.
fn each_line(path: &str, heads: &[&str], agrees: impl Fn(&[&str]) -> Option<bool>) -> Outcome {
    let text = fs::read_to_string(path).unwrap_or_else(|error| panic!("{path}: {error}"));
    let mut outcome = Outcome::default();
    for (n, line) in text.lines().enumerate() {
        let fields: Vec<&str> = line.split('\t').collect();
        if n == 0 {
            assert_eq!(fields, heads, "{path}: other column heads");
            continue;
        }
        assert_eq!(fields.len(), heads.len(), "{path}, line {}: not a field for each column", n + 1);
        match agrees(&fields) {
            None => outcome.left += 1,
            Some(true) => outcome.run += 1,
            Some(false) => {
                outcome.run += 1;
                outcome.differences += 1;
                println!("{path}, line {}: the model differs", n + 1);
            }
        }
    }
    outcome
}

/// Vectors of the host's check.
pub fn check_lines(path: &str) -> Outcome {
    let heads = ["format", "container", "room", "answer", "records"];
    each_line(path, &heads, |fields| {
        let mut room = vec![FILLER; number(fields[2])];
        let mut wanted = room.clone();
        let records = bytes(fields[4]);
        wanted[..records.len()].copy_from_slice(&records);
        let answer = check(number(fields[0]) as u32, &bytes(fields[1]), &mut room);
        Some(answer as usize == number(fields[3]) && room == wanted)
    })
}

/// Vectors of the fill.
pub fn write_lines(path: &str) -> Outcome {
    let heads = ["format", "tail", "grant", "list", "cause", "place", "used", "next tail", "container"];
    each_line(path, &heads, |fields| {
        let tail = Part::of(&bytes(fields[1]));
        let answer = fill(number(fields[0]) as u32, &tail, grant(fields[2]), &bytes(fields[3]), CONTAINER);
        let (cause, place, used) = (number(fields[4]), number(fields[5]), number(fields[6]));
        Some(match answer {
            Err(r) => (r.cause as usize, r.place as usize) == (cause, place),
            Ok(filled) => {
                let tail = Part::of(&bytes(fields[7]));
                cause == 0 && filled.used == used && filled.tail == tail && filled.container[..] == bytes(fields[8])
            }
        })
    })
}

/// Vectors of the feeder.
pub fn feed_lines(path: &str) -> Outcome {
    let heads = [
        "format",
        "responses",
        "others",
        "positions",
        "run",
        "list",
        "cause",
        "place",
        "record",
        "next positions",
        "next run",
    ];
    each_line(path, &heads, |fields| {
        let (responses, others, record) = (long_bytes(fields[1])?, long_bytes(fields[2])?, long_bytes(fields[8])?);
        let (now, next) = (feed(fields[3], fields[4]), feed(fields[9], fields[10]));
        let (list, cause) = (waiting(fields[5]), number(fields[6]) as u32);
        Some(match ask(number(fields[0]) as u32, &now, &responses, &others) {
            Err(refused) => refused == Refused { list, refusal: refusal(cause, number(fields[7])) } && now == next,
            Ok(handed) => cause == 0 && (handed.list, handed.record, handed.feed) == (list, &record[..], next),
        })
    })
}

/// Vectors of whole logs.
pub fn log_lines(path: &str) -> Outcome {
    each_line(path, &["name", "verdict", "log"], |fields| {
        let log = long_bytes(fields[2])?;
        let answer = verdict(&log).to_string();
        if answer != fields[1] {
            println!("{}: the model says {answer}, wanted {}", fields[0], fields[1]);
        }
        Some(answer == fields[1])
    })
}

/// A decimal number.
fn number(text: &str) -> usize {
    text.parse().unwrap_or_else(|_| panic!("bad number {text}"))
}

/// The bytes of a hex field, `-` being none.
fn bytes(text: &str) -> Vec<u8> {
    let digits = if text == "-" { "" } else { text };
    (0..digits.len() / 2).map(|n| hex_byte(&digits[2 * n..2 * n + 2])).collect()
}

/// The byte of two hex digits.
fn hex_byte(digits: &str) -> u8 {
    u8::from_str_radix(digits, 16).unwrap_or_else(|_| panic!("bad hex {digits}"))
}

/// Six numbers of a grant: ShC, RP and four counts.
fn grant(text: &str) -> Grant {
    let n: Vec<u8> = text.split(',').map(|field| number(field) as u8).collect();
    Grant { shared: n[0] != 0, plane: n[1], req: n[2], rsp: n[3], snp: n[4], dat: n[5] }
}

/// A feed of two positions and a run.
fn feed(positions: &str, run: &str) -> Feed {
    let n: Vec<usize> = positions.split(',').map(number).collect();
    Feed { response: n[0], other: n[1], run: number(run) as u32 }
}

/// The list of a number, `-` being neither.
fn waiting(text: &str) -> Option<Waiting> {
    match text {
        "-" => None,
        "0" => Some(Waiting::Responses),
        "1" => Some(Waiting::Others),
        _ => panic!("bad list {text}"),
    }
}

/// The bytes of a field where `(n)` stands for n zero bytes, unless they are very many.
fn long_bytes(text: &str) -> Option<Vec<u8>> {
    let mut out = Vec::new();
    for (n, piece) in text.split(['(', ')']).enumerate() {
        if n % 2 == 0 {
            out.extend(bytes(piece));
        } else if out.len() + number(piece) <= LARGEST {
            out.resize(out.len() + number(piece), 0);
        } else {
            return None;
        }
    }
    Some(out)
}
