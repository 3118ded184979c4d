//! The programs, fed on standard input.

use std::io::{Read, Write};
use std::process::{Command, Stdio};

use model::layout::{Format, Part, CONTAINER};
use model::log::Verdict;
use model::reader::judge;

use crate::random::Random;
use crate::tally::hex;

/// How the input is cut into parts: all of one size, or random sizes if 0.
pub const PARTS: [usize; 5] = [1, 7, 256, 257, 0];

/// What a program prints for an input fed in parts.
pub fn run(path: &str, input: &[u8], part: usize) -> Vec<u8> {
    let mut random = Random::new(input.len() as u64);
    let mut child = Command::new(path)
        .stdin(Stdio::piped())
        .stdout(Stdio::piped())
        .spawn()
        .unwrap_or_else(|error| panic!("{path}: {error}"));
    let mut to = child.stdin.take().expect("standard input is a pipe");
    let mut rest = input;
    while !rest.is_empty() {
        let size = if part == 0 { 1 + random.below(600) } else { part };
        let (now, behind) = rest.split_at(size.min(rest.len()));
        if to.write_all(now).is_err() {
            break;
        }
        rest = behind;
    }
    drop(to);
    let mut output = Vec::new();
    let mut from = child.stdout.take().expect("standard output is a pipe");
    from.read_to_end(&mut output).unwrap_or_else(|error| panic!("{path}: {error}"));
    child.wait().unwrap_or_else(|error| panic!("{path}: {error}"));
    output
}

/// What `unpack` prints for containers in order: every message as hex, then the verdict.
pub fn unpacked(format: Format, containers: &[[u8; CONTAINER]]) -> String {
    let (messages, verdict) = read(format, containers);
    let lines: String = messages.iter().map(|message| hex(message) + "\n").collect();
    lines + &format!("{verdict}\n")
}

/// The messages that the model reads out of containers in order, and its verdict.
pub fn read(format: Format, containers: &[[u8; CONTAINER]]) -> (Vec<Vec<u8>>, Verdict) {
    let mut messages = Vec::new();
    let mut carry = Part::none();
    let mut verdict = Verdict { accepted: 0, refused: None };
    for container in containers {
        match judge(format, &carry, container) {
            Err(refusal) => {
                verdict.refused = Some(refusal);
                break;
            }
            Ok(reading) => {
                carry = reading.carry;
                verdict.accepted += 1;
                messages.extend(reading.finished);
            }
        }
    }
    (messages, verdict)
}
