//! Random asks of the feeder, in sequences that keep the feed last answered and lengthen the lists.

use model::cause::{Refusal, BROKEN, NOT_VALID, ROOM, TOO_LONG};
use model::feeder::{self, Waiting, LEAST_ROOM, LONGEST_RUN, NUMBERS};
use model::list::{read_record, write_record, LIST};
use model::message::{Kind, KINDS};

use crate::format_number;
use crate::make;
use crate::proved;
use crate::random::Random;
use crate::tally::{hex, In, Tally};

/// The most asks of a sequence.
const SEQUENCE: usize = 40;

/// The two lists, in the order of their positions in a feed.
const LISTS: [Waiting; 2] = [Waiting::Responses, Waiting::Others];

/// The most asks until the head of each list is served, which the run must meet.
const WAITS: [usize; 2] = [2, 5];

/// The causes that asks must meet.
const CAUSES: [u32; 4] = [ROOM, BROKEN, TOO_LONG, NOT_VALID];

/// Compares so many asks.
pub fn compare(random: &mut Random, tally: &mut Tally, asks: usize) {
    let mut left = asks;
    while left > 0 {
        let most = left.min(1 + random.below(SEQUENCE));
        left -= compare_sequence(random, tally, most);
    }
}

/// Whether the asks met all that they are to meet; prints what is missing.
pub fn is_complete(tally: &Tally) -> bool {
    let missed: Vec<u32> = CAUSES.into_iter().filter(|&cause| !tally.has_met_in(In::Ask, cause)).collect();
    if !missed.is_empty() {
        println!("causes not met in asks: {missed:?}");
    }
    if tally.waits != WAITS {
        println!("longest waits of {:?} asks, not {WAITS:?}", tally.waits);
    }
    missed.is_empty() && tally.waits == WAITS
}

/// Compares a sequence of at most so many asks, which some refusals end, and answers how many there were.
fn compare_sequence(random: &mut Random, tally: &mut Tally, most: usize) -> usize {
    let mut sequence = Sequence::new(random);
    let seldom = random.pick(&[1, 3, 10, 1_000_000]);
    for n in 1..=most {
        for list in &mut sequence.lists {
            if random.once_in(seldom) {
                list.lengthen(random);
            }
        }
        let refused = sequence.ask(random, tally);
        if refused && random.once_in(2) {
            return n;
        }
    }
    most
}

/// A waiting list, and the rest of a record of which it has a part at its end.
struct List {
    waiting: Waiting,
    bytes: Vec<u8>,
    owed: Vec<u8>,
}

impl List {
    /// A list of mostly right records that mostly belong there, sometimes of all that is allowed or more.
    fn new(random: &mut Random, waiting: Waiting) -> List {
        let most = if random.once_in(6) { 0 } else { make::list_bound(random) };
        let misplaced = random.pick(&[10, 100, 1_000_000]);
        let mut bytes = Vec::new();
        let mut record = Vec::new();
        while bytes.len() + record.len() <= most {
            bytes.extend(record);
            record = random_record(random, waiting, misplaced);
        }
        if random.once_in(6) {
            make::damage_list(random, &mut bytes);
        }
        if random.once_in(100) {
            bytes.resize(random.pick(&[LIST, LIST + 1, 5_000]), 0);
        }
        List { waiting, bytes, owed: Vec::new() }
    }

    /// Appends a record, or a part of one whose rest is appended next.
    fn lengthen(&mut self, random: &mut Random) {
        if self.owed.is_empty() {
            self.owed = random_record(random, self.waiting, 100);
        }
        let all = self.owed.len();
        let len = if random.once_in(4) { random.below(all) } else { all };
        self.bytes.extend(self.owed.drain(..len));
    }

    /// A position: mostly where a record begins or behind the last, sometimes any.
    fn position(&self, random: &mut Random) -> u32 {
        let mut at = 0;
        if random.once_in(20) {
            at = random.below(self.bytes.len() + 1);
        }
        for _ in 0..random.below(8) {
            at += read_record(&self.bytes[at..]).map_or(0, |(_, len)| len);
        }
        at as u32
    }
}

/// A right record that belongs in a list, or in the other one once in so many times.
fn random_record(random: &mut Random, waiting: Waiting, misplaced: usize) -> Vec<u8> {
    let belongs = !random.once_in(misplaced);
    let kinds: Vec<Kind> = KINDS.into_iter().filter(|&kind| waiting.takes(kind) == belongs).collect();
    let kind = random.pick(&kinds);
    let mut record = Vec::new();
    write_record(&make::message(random, kind), &mut record);
    record
}

/// A feed in numbers: fresh, any that is valid, or one that is not.
fn random_feed(random: &mut Random, lists: &[List; 2]) -> Vec<u32> {
    let mut numbers = vec![0; NUMBERS];
    if random.once_in(2) {
        let run = random.below(LONGEST_RUN as usize + 1) as u32;
        numbers = vec![lists[0].position(random), lists[1].position(random), run];
    }
    if random.once_in(20) {
        let n = random.below(lists.len());
        let end = lists[n].bytes.len() as u32;
        match random.below(4) {
            0 => numbers[n] = end + 1,
            1 => numbers[n] = random.pick(&[end + 100, u32::MAX]),
            2 => numbers[NUMBERS - 1] = random.pick(&[LONGEST_RUN + 1, 255, u32::MAX]),
            _ => numbers.resize(random.pick(&[0, 2, 4]), 0),
        }
    }
    numbers
}

/// A length of room, sometimes too small.
fn room_len(random: &mut Random) -> usize {
    if random.once_in(50) {
        random.pick(&[0, LEAST_ROOM - 1])
    } else {
        random.pick(&[LEAST_ROOM, LEAST_ROOM + 1, 300])
    }
}

/// What is handed in ask after ask, and how many asks each list's head has waited.
struct Sequence {
    format: u32,
    numbers: Vec<u32>,
    lists: [List; 2],
    waits: [usize; 2],
}

impl Sequence {
    /// A random beginning.
    fn new(random: &mut Random) -> Sequence {
        let format = format_number(random);
        let lists = LISTS.map(|waiting| List::new(random, waiting));
        Sequence { format, numbers: random_feed(random, &lists), lists, waits: [0; 2] }
    }

    /// Compares an ask, goes on with the feed that the proved code answers, and says whether it is refused.
    fn ask(&mut self, random: &mut Random, tally: &mut Tally) -> bool {
        let [responses, others] = [&self.lists[0].bytes, &self.lists[1].bytes];
        let mut room = vec![random.byte(); room_len(random)];
        let mut room_proved = room.clone();
        let (mut next, mut next_proved) = (self.numbers.clone(), self.numbers.clone());
        let expected = feeder::feed(self.format, &mut next, responses, others, &mut room);
        let code = proved::feed(self.format, &mut next_proved, responses, others, &mut room_proved);
        if (code, &next_proved, &room_proved) != (expected, &next, &room) {
            let model = format!("{} feed {next:?} room {}", show(expected), hex(&room));
            let proved = format!("{} feed {next_proved:?} room {}", show(code), hex(&room_proved));
            self.differ(tally, &model, &proved);
        }
        self.count_waits(tally, code);
        self.numbers = next_proved;
        tally.handed += usize::from((1..1 << 24).contains(&code));
        tally.count(In::Ask, refused(expected));
        refused(code).is_some()
    }

    /// Counts an ask for each head that waits; one that is not served in time is a difference.
    fn count_waits(&mut self, tally: &mut Tally, code: u32) {
        if refused(code).is_some() {
            self.waits = [0; 2];
            return;
        }
        for n in 0..LISTS.len() {
            self.waits[n] += usize::from((self.numbers[n] as usize) < self.lists[n].bytes.len());
            if code >> 16 == n as u32 + 1 {
                tally.waits[n] = tally.waits[n].max(self.waits[n]);
                self.waits[n] = 0;
            } else if self.waits[n] >= WAITS[n] {
                let model = format!("{:?} served within {} asks", LISTS[n], WAITS[n]);
                self.differ(tally, &model, &format!("{} at ask {}", show(code), self.waits[n]));
            }
        }
    }

    /// Counts a difference in an ask.
    fn differ(&self, tally: &mut Tally, model: &str, proved: &str) {
        let [responses, others] = [&self.lists[0].bytes, &self.lists[1].bytes];
        let what = format!(
            "c2c_feed, format {}, feed {:?}, lists of {} and {} bytes",
            self.format,
            self.numbers,
            responses.len(),
            others.len()
        );
        tally.differ(&what, &[&responses[..], others].concat(), model, proved);
    }
}

/// The refusal in a code, if it is one.
fn refused(code: u32) -> Option<Refusal> {
    (code >> 24 != 0).then_some(Refusal { cause: code >> 24, place: u64::from(code % 65_536) })
}

/// A code in words.
fn show(code: u32) -> String {
    format!("cause {} list {} n {}", code >> 24, code >> 16 & 255, code % 65_536)
}
