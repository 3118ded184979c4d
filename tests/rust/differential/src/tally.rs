//! Counts of what was compared, met and found different.

use std::collections::BTreeMap;

use model::cause::Refusal;
use model::layout::GRANULES;

const INPUTS: usize = 4;
const SHOWN: usize = 10;
const MOST_PLACES: usize = 14;

/// How often a cause was met, by inputs and by places.
#[derive(Default)]
struct Met {
    times: [usize; INPUTS],
    places: BTreeMap<u64, usize>,
}

/// What a refusal was met in.
#[derive(Clone, Copy)]
pub enum In {
    Container = 0,
    List = 1,
    Log = 2,
    Ask = 3,
}

/// All counts of a run.
#[derive(Default)]
pub struct Tally {
    pub compared: [usize; INPUTS],
    pub accepted: [usize; INPUTS],
    pub entries: usize,
    /// The records that lie beneath longer messages, by granule.
    pub beneath: [usize; GRANULES],
    pub packings: usize,
    /// The lists that come out in another order.
    pub reordered: usize,
    pub pairs: usize,
    /// The records that asks hand out.
    pub handed: usize,
    /// The most asks until the head of the response list, and of the other one, is served.
    pub waits: [usize; 2],
    pub runs: usize,
    pub differences: usize,
    causes: BTreeMap<u32, Met>,
}

impl Tally {
    /// Counts one answer of the model.
    pub fn count(&mut self, place: In, refused: Option<Refusal>) {
        self.compared[place as usize] += 1;
        match refused {
            None => self.accepted[place as usize] += 1,
            Some(refusal) => {
                let met = self.causes.entry(refusal.cause).or_default();
                met.times[place as usize] += 1;
                *met.places.entry(refusal.place).or_default() += 1;
            }
        }
    }

    /// Counts a difference and shows the first ones.
    pub fn differ(&mut self, what: &str, input: &[u8], model: &str, proved: &str) {
        self.differences += 1;
        if self.differences <= SHOWN {
            println!("difference in {what}\n  input  {}\n  model  {model}\n  proved {proved}", hex(input));
        }
    }

    /// Whether a cause was met.
    pub fn has_met(&self, cause: u32) -> bool {
        self.causes.contains_key(&cause)
    }

    /// Whether a cause was met in inputs of one kind.
    pub fn has_met_in(&self, place: In, cause: u32) -> bool {
        self.causes.get(&cause).is_some_and(|met| met.times[place as usize] > 0)
    }

    /// How often a cause was met at each place up to the last.
    pub fn count_places(&self, cause: u32, last: usize) -> Vec<usize> {
        let count = |place| self.causes.get(&cause).and_then(|met| met.places.get(&place)).copied();
        (0..=last as u64).map(|place| count(place).unwrap_or(0)).collect()
    }

    /// Prints the table of causes met.
    pub fn print_table(&self) {
        println!("{:>5} {:>10} {:>8} {:>8} {:>8}  places", "cause", "containers", "lists", "logs", "asks");
        let [containers, lists, logs, asks] = self.accepted;
        println!("{:>5} {containers:>10} {lists:>8} {logs:>8} {asks:>8}", "none");
        for (cause, met) in &self.causes {
            let [containers, lists, logs, asks] = met.times;
            println!("{cause:>5} {containers:>10} {lists:>8} {logs:>8} {asks:>8}  {}", places(&met.places));
        }
    }
}

/// A few places by themselves, many by their number.
fn places(places: &BTreeMap<u64, usize>) -> String {
    if places.len() > MOST_PLACES {
        return format!("{} different", places.len());
    }
    let shown: Vec<String> = places.keys().map(u64::to_string).collect();
    shown.join(" ")
}

/// Bytes in hex.
pub fn hex(bytes: &[u8]) -> String {
    bytes.iter().map(|byte| format!("{byte:02x}")).collect()
}
