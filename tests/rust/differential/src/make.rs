//! Random messages, lists and containers that keep the rules.

use model::layout::{granule_start, Format, Grant, Header, Part, CONTAINER, GRANULES, GROUP};
use model::list::{write_record, LIST};
use model::message::{Kind, ACTIVATIONS, KINDS};
use model::placement::Placement;

use crate::random::Random;

/// Random bytes, sometimes zeros or ends of the range.
pub fn body(random: &mut Random, size: usize) -> Vec<u8> {
    let style = random.below(4);
    let one = |random: &mut Random| match style {
        0 => 0,
        1 => random.pick(&[0, 0, 1, 255]),
        _ => random.byte(),
    };
    (0..size).map(|_| one(random)).collect()
}

/// A count of a grant, often small.
fn count(random: &mut Random) -> u8 {
    match random.below(4) {
        0 => 0,
        1 => random.byte_below(4),
        2 => random.pick(&[1, 254, 255]),
        _ => random.byte(),
    }
}

/// A grant with ShC 1 and RP 0, or ShC 0 and any RP.
pub fn grant(random: &mut Random) -> Grant {
    let shared = random.once_in(3);
    let plane = if shared { 0 } else { random.byte_below(8) };
    let mut grant = Grant { shared, plane, ..Grant::default() };
    if !random.once_in(4) {
        grant.req = count(random);
        grant.rsp = count(random);
        grant.snp = count(random);
        grant.dat = count(random);
    }
    grant
}

/// A message of a kind with a right head and a random body.
pub fn message(random: &mut Random, kind: Kind) -> Vec<u8> {
    let mut bytes = body(random, kind.size());
    let (number, op) = kind.code();
    let flags = match kind.flag_values() {
        1 => 0,
        values => random.byte_below(values),
    };
    bytes[0] = number + 16 * flags;
    if let Some(op) = op {
        bytes[1] = op;
    }
    match kind {
        Kind::WrReqDataS | Kind::WrReqDataL => bytes[1] = random.byte_below(2),
        Kind::Activation => bytes[2] = 1 + random.byte_below(ACTIVATIONS),
        Kind::CrdtGrant => set_grant(&mut bytes, grant(random)),
        _ => {}
    }
    bytes
}

/// A message of one of some kinds; none if there are none.
pub fn message_of(random: &mut Random, kinds: &[Kind]) -> Option<Vec<u8>> {
    if kinds.is_empty() {
        return None;
    }
    let kind = random.pick(kinds);
    Some(message(random, kind))
}

/// Gives a CrdtGrant its grant.
pub fn set_grant(message: &mut [u8], grant: Grant) {
    message[2..7].copy_from_slice(&grant.to_form());
    message[7..].fill(0);
}

/// Kinds to choose from: half the time all, else a random part of them.
pub fn palette(random: &mut Random) -> Vec<Kind> {
    if random.once_in(2) {
        return KINDS.to_vec();
    }
    let count = 1 + random.below(5);
    (0..count).map(|_| random.pick(&KINDS)).collect()
}

/// Longer messages, and short ones that lie beneath them where they may.
const LAYERS: [Kind; 10] = [
    Kind::ReqL,
    Kind::DataS,
    Kind::DataL,
    Kind::WrReqDataS,
    Kind::WrReqDataL,
    Kind::Resp,
    Kind::Resp,
    Kind::Activation,
    Kind::CrdtGrant,
    Kind::Connect,
];

/// A list of right records of at most so many bytes, often of longer messages with short ones between.
pub fn list(random: &mut Random, most: usize) -> Vec<u8> {
    let kinds = if random.once_in(2) { LAYERS.to_vec() } else { palette(random) };
    let mut list = Vec::new();
    for _ in 0..most {
        let kind = random.pick(&kinds);
        if list.len() + 1 + kind.size() > most {
            break;
        }
        write_record(&message(random, kind), &mut list);
    }
    list
}

/// A bound on a list's length: often short, sometimes all that is allowed.
pub fn list_bound(random: &mut Random) -> usize {
    match random.below(8) {
        0 => LIST,
        1 => random.below(LIST + 1),
        _ => random.below(500),
    }
}

/// A container that keeps the rules, with messages that `choose` gives by granule out of the kinds that are legal there.
pub fn container(
    random: &mut Random,
    format: Format,
    carry: &Part,
    grant: Grant,
    mut choose: impl FnMut(&mut Random, usize, &[Kind]) -> Option<Vec<u8>>,
) -> [u8; CONTAINER] {
    let mut bytes = [0; CONTAINER];
    let mut placement = Placement::default();
    let mut rest = rest_of(random, carry);
    for position in format.link_header() {
        bytes[position] = random.byte();
    }
    for g in 0..GRANULES {
        let goes_on = !rest.is_empty() && !format.is_small(g);
        if !goes_on {
            let legal = legal_kinds(format, &placement, g);
            let beneath = !rest.is_empty();
            let Some(message) = choose(random, g, &legal) else { continue };
            placement.starts[g] = Kind::of(&message);
            if beneath {
                put(&mut bytes, g, &message);
                placement.populated[g] = true;
                continue;
            }
            rest = message;
        }
        placement.populated[g] = true;
        let behind = rest.split_off(rest.len().min(format.granule_size(g)));
        put(&mut bytes, g, &rest);
        rest = behind;
    }
    let starts = placement.starts.map(|start| start.is_some());
    Header { starts, grant }.write(format, &mut bytes);
    bytes
}

/// A random rest of a carried message.
fn rest_of(random: &mut Random, carry: &Part) -> Vec<u8> {
    let missing = Kind::of(carry.message()).map_or(0, |kind| kind.size() - carry.len);
    body(random, missing)
}

/// The kinds that may begin at a granule, none behind an unpopulated one of the group.
fn legal_kinds(format: Format, placement: &Placement, g: usize) -> Vec<Kind> {
    let fits = |kind: &Kind| kind.may_begin_at(format, g) && placement.with(format, g, *kind).judge_groups().is_ok();
    KINDS.into_iter().filter(fits).collect()
}

/// Copies bytes to a granule's front.
fn put(container: &mut [u8], g: usize, part: &[u8]) {
    let start = granule_start(g);
    container[start..start + part.len()].copy_from_slice(part);
}

/// The legal kinds that are to choose from, without Activation beside a grant.
pub fn chosen_beside(grant: &Grant, kinds: &[Kind], legal: &[Kind]) -> Vec<Kind> {
    let may = |kind: &Kind| kinds.contains(kind) && (*kind != Kind::Activation || grant.is_empty());
    legal.iter().copied().filter(may).collect()
}

/// A container that keeps the rules from a fresh state.
pub fn fresh_container(random: &mut Random, format: Format) -> [u8; CONTAINER] {
    let kinds = palette(random);
    let density = 1 + random.below(8);
    let grant = if random.once_in(2) { grant(random) } else { Grant::default() };
    container(random, format, &Part::none(), grant, |random, _, legal| {
        if random.once_in(density) && density < 8 {
            return None;
        }
        message_of(random, &chosen_beside(&grant, &kinds, legal))
    })
}

/// Damages a container in one random way.
pub fn damage(random: &mut Random, format: Format, bytes: &mut [u8]) {
    let header = format.header();
    let g = random.below(GRANULES);
    let start = granule_start(g);
    let last = start + format.granule_size(g) - 1;
    match random.below(13) {
        0 => bytes[random.below(CONTAINER)] = random.byte(),
        1 => bytes[random.below(CONTAINER)] ^= 1 << random.below(8),
        2 => {
            let (p, bits) = random.pick(&[(1, 16), (2, 16), (7, 1), (8, 1), (9, 1)]);
            bytes[header[p]] ^= bits << random.below(4);
        }
        3 => bytes[header[2]] = random.byte_below(16),
        4 => bytes[header[g / 8]] ^= 1 << (g % 8),
        5 => bytes[start] = bytes[start] & 0xF0 | random.byte_below(16),
        6 => bytes[start + 1] = random.byte_below(8),
        7 => bytes[start] ^= 16 << random.below(4),
        8 => bytes[last - random.below(10)] = 1 + random.byte_below(255),
        9 => clear(format, bytes, g),
        10 => bytes[header[3 + random.below(4)]] = 1 + random.byte_below(255),
        11 => overwrite(random, format, bytes, g, &KINDS),
        _ => {
            let kinds = random.pick(&[[Kind::Resp2, Kind::Resp], [Kind::Activation, Kind::Connect]]);
            for g in g / GROUP * GROUP..g / GROUP * GROUP + GROUP {
                overwrite(random, format, bytes, g, &kinds);
            }
        }
    }
}

/// Empties a granule and its start bit.
fn clear(format: Format, bytes: &mut [u8], g: usize) {
    let start = granule_start(g);
    bytes[start..start + format.granule_size(g)].fill(0);
    bytes[format.header()[g / 8]] &= !(1 << (g % 8));
}

/// Starts a message of one of some kinds in a granule, whatever stood there.
fn overwrite(random: &mut Random, format: Format, bytes: &mut [u8], g: usize, kinds: &[Kind]) {
    clear(format, bytes, g);
    let kind = random.pick(kinds);
    let mut message = message(random, kind);
    message.truncate(format.granule_size(g));
    if random.once_in(4) {
        damage_head(random, &mut message);
    }
    put(bytes, g, &message);
    bytes[format.header()[g / 8]] |= 1 << (g % 8);
}

/// Changes a byte near a message's front.
fn damage_head(random: &mut Random, message: &mut [u8]) {
    let near = message.len().min(16);
    let at = random.below(near);
    message[at] = random.byte();
}

/// Damages a list in one random way.
pub fn damage_list(random: &mut Random, list: &mut Vec<u8>) {
    if list.is_empty() {
        *list = body(random, 3);
        return;
    }
    let at = random.below(list.len());
    match random.below(8) {
        0 => list[at] = random.byte(),
        1 => list[at] ^= 1 << random.below(8),
        2 => list.truncate(at),
        3 => list.insert(at, random.byte()),
        4 => drop(list.remove(at)),
        5 => list.extend(random.pick(&[&[0x80, 0][..], &[0x8A, 0, 3], &[255; 6], &[0], &[10], &[1, 10], &[2, 10, 0]])),
        6 => {
            let kind = random.pick(&KINDS);
            list.extend([128 + kind.size() as u8, 0]);
            list.extend(message(random, kind));
        }
        _ => {
            let (number, size) = random.pick(&[(3, 11), (3, 20), (11, 20), (0, 10), (10, 16), (1, 10)]);
            list.push(size);
            list.push(number);
            list.extend(vec![0; usize::from(size) - 1]);
        }
    }
}

/// A writer's tail, mostly valid.
pub fn tail(random: &mut Random) -> Part {
    let len = if random.once_in(2) { 0 } else { 20 * random.below(6) };
    let mut tail = Part::of(&body(random, len));
    match random.below(60) {
        0 => tail.len = random.below(200),
        1 => tail.len = usize::MAX,
        2 => tail.bytes[random.below(100)] ^= 1,
        _ => {}
    }
    tail
}
