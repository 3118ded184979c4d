//! Document 01's examples, M1 to M10 and those that are run only, what a Resp2 pays, records beneath longer messages, missing pools, and asks
//! of the feeder.

use crate::cause::{refusal, Refusal};
use crate::feeder::{ask, feed, Feed, Refused, Waiting};
use crate::layout::{granule_start, Format, Grant, Header, Part, CONTAINER, GRANULES, GROUP};
use crate::ledger::{Ledger, Receiver, POOLS, RSP, SHARED_DAT};
use crate::list::{read_number, write_list, write_number};
use crate::log::verdict;
use crate::message::{Kind, KINDS};
use crate::order::is_returned;
use crate::reader::{check, is_valid_carry, judge, judge_fresh, Reading};
use crate::writer::{fill, pack, Filled};

/// A message of a kind with a right head and a body of zeros.
fn message(kind: Kind) -> Vec<u8> {
    let mut bytes = vec![0; kind.size()];
    let (number, op) = kind.code();
    bytes[0] = number;
    if let Some(op) = op {
        bytes[1] = op;
    }
    if kind == Kind::Activation {
        bytes[2] = 1;
    }
    bytes
}

/// A container with messages at granules, cut at the container's end.
fn container(format: Format, messages: &[(usize, Vec<u8>)], grant: Grant) -> [u8; CONTAINER] {
    let mut bytes = [0; CONTAINER];
    let mut starts = [false; GRANULES];
    for (granule, message) in messages {
        starts[*granule] = true;
        let granules = format.occupied(*granule, message.len());
        for (g, part) in granules.into_iter().zip(message.chunks(20)) {
            bytes[granule_start(g)..granule_start(g) + part.len()].copy_from_slice(part);
        }
    }
    Header { starts, grant }.write(format, &mut bytes);
    bytes
}

/// A container with messages of kinds at granules and no grant.
fn of_kinds(format: Format, kinds: &[(usize, Kind)]) -> [u8; CONTAINER] {
    let messages: Vec<_> = kinds.iter().map(|&(g, kind)| (g, message(kind))).collect();
    container(format, &messages, Grant::default())
}

/// Reads a container from a fresh state.
fn read(format: Format, container: &[u8]) -> Result<Reading, Refusal> {
    judge(format, &Part::none(), container)
}

/// A list of messages of kinds.
fn list_of(kinds: &[Kind]) -> Vec<u8> {
    write_list(&kinds.iter().map(|&kind| message(kind)).collect::<Vec<_>>())
}

/// Fills a container from messages of kinds, with a tail of some bytes and no grant.
fn fill_kinds(format: u32, tail: usize, kinds: &[Kind]) -> Filled {
    fill(format, &Part::of(&[1; 100][..tail]), Grant::default(), &list_of(kinds), CONTAINER).unwrap()
}

/// The letter of a list that is served.
fn letter(list: Option<Waiting>) -> char {
    match list {
        None => '-',
        Some(Waiting::Responses) => 'R',
        Some(Waiting::Others) => 'O',
    }
}

/// The granules at which messages start in a container.
fn starts(format: Format, container: &[u8]) -> Vec<usize> {
    let header = Header::read(format, container).unwrap();
    (0..GRANULES).filter(|&g| header.starts[g]).collect()
}

/// A message at a granule behind responses in its group.
fn behind_responses(granule: usize, last: &[u8]) -> Vec<(usize, Vec<u8>)> {
    let responses = (granule / GROUP * GROUP..granule).map(|g| (g, message(Kind::Resp)));
    responses.chain([(granule, last.to_vec())]).collect()
}

/// The messages read out of containers from a fresh state.
fn read_all(format: Format, containers: &[[u8; CONTAINER]]) -> Vec<Vec<u8>> {
    let mut carry = Part::none();
    let mut finished = Vec::new();
    for container in containers {
        let reading = judge(format, &carry, container).unwrap();
        finished.extend(reading.finished);
        carry = reading.carry;
    }
    finished
}

/// A receiver with one plane and no push, and one capacity.
fn receiver(pool: usize, capacity: u32) -> Receiver {
    let mut capacities = [0; POOLS];
    capacities[pool] = capacity;
    Receiver { planes: 1, push: 0, capacities }
}

/// A ledger of format X with one capacity in both directions.
fn ledger(pool: usize, capacity: u32) -> Ledger {
    Ledger::fresh(0, [receiver(pool, capacity); 2]).unwrap()
}

/// A container of format X that grants shared DAT.
fn granting(dat: u8) -> [u8; CONTAINER] {
    container(Format::X, &[], Grant { shared: true, dat, ..Grant::default() })
}

#[test]
fn m1_zero_container() {
    for format in [Format::X, Format::Y] {
        let reading = read(format, &[0; CONTAINER]).unwrap();
        assert!(reading.finished.is_empty());
        assert_eq!(reading.carry, Part::none());
    }
}

#[test]
fn m2_one_response() {
    let list = [&[10, 3][..], &[0; 9]].concat();
    let filled = fill(0, &Part::none(), Grant::default(), &list, CONTAINER).unwrap();
    let mut wanted = [0; CONTAINER];
    wanted[0] = 3;
    wanted[126] = 1;
    assert_eq!((filled.container, filled.used, filled.tail), (wanted, 11, Part::none()));
}

#[test]
fn m3_long_request_passes_over() {
    assert_eq!(Format::Y.occupied(4, Kind::ReqL.size()), [4, 6]);
    let alone = of_kinds(Format::Y, &[(4, Kind::ReqL)]);
    assert_eq!(read(Format::Y, &alone), Err(refusal(10, 1)));
    let both = of_kinds(Format::Y, &[(3, Kind::Resp), (4, Kind::ReqL)]);
    assert_eq!(read(Format::Y, &both).unwrap().finished, [message(Kind::Resp), message(Kind::ReqL)]);
}

#[test]
fn m4_m5_carries() {
    for (format, len) in [(Format::X, 60), (Format::Y, 40)] {
        let reading = read(format, &of_kinds(format, &[(9, Kind::DataL)])).unwrap();
        assert_eq!(reading.carry.len, len);
    }
}

#[test]
fn m6_m7_responses() {
    let five = of_kinds(Format::X, &[(0, Kind::Resp2), (1, Kind::Resp2), (2, Kind::Resp)]);
    assert_eq!(read(Format::X, &five), Err(refusal(12, 0)));
    let four = of_kinds(Format::X, &[(0, Kind::Resp), (1, Kind::Resp2), (2, Kind::Resp)]);
    assert_eq!(read(Format::X, &four).unwrap().finished.len(), 3);
}

#[test]
fn m8_capacity() {
    let ledger = ledger(SHARED_DAT, 2);
    let next = ledger.audit(0, &granting(2)).unwrap();
    assert_eq!((next.held(1, SHARED_DAT), next.held(0, SHARED_DAT)), (2, 0));
    assert_eq!(ledger.audit(0, &granting(3)), Err(refusal(16, SHARED_DAT)));
}

#[test]
fn m9_numbers() {
    let mut bytes = Vec::new();
    write_number(300, &mut bytes);
    assert_eq!(bytes, [0xAC, 2]);
    assert_eq!(read_number(&bytes), Some((300, 2)));
    assert_eq!(read_number(&[0x80, 0]), None);
}

#[test]
fn m10_slot_returns_at_the_end() {
    let mut data = message(Kind::DataS);
    data[0] += 16;
    let begins = container(Format::X, &[(9, data)], Grant::default());
    let ends = [0; CONTAINER];
    let begun = ledger(SHARED_DAT, 1).audit(0, &granting(1)).unwrap().audit(1, &begins).unwrap();
    assert_eq!((begun.held(1, SHARED_DAT), begun.open(1, SHARED_DAT)), (0, 1));
    assert_eq!(begun.audit(0, &granting(1)), Err(refusal(16, SHARED_DAT)));
    let ended = begun.audit(1, &ends).unwrap();
    assert_eq!(ended.open(1, SHARED_DAT), 0);
    assert!(ended.audit(0, &granting(1)).is_ok());
}

#[test]
fn resp2_pays_two() {
    let granting_rsp = |rsp| container(Format::X, &[], Grant { rsp, ..Grant::default() });
    let [resp, resp2] = [Kind::Resp, Kind::Resp2].map(|kind| of_kinds(Format::X, &[(0, kind)]));
    let fresh = ledger(RSP, 2);
    assert_eq!(fresh.audit(0, &granting_rsp(1)).unwrap().audit(1, &resp2), Err(refusal(15, RSP)));
    let granted = fresh.audit(0, &granting_rsp(2)).unwrap();
    let paid = granted.audit(1, &resp2).unwrap();
    assert_eq!((paid.begun[1][RSP], paid.finished[1][RSP]), (2, 2));
    assert_eq!(paid.audit(1, &resp), Err(refusal(15, RSP)));
    assert!(paid.audit(0, &granting_rsp(2)).is_ok());
    assert_eq!(granted.audit(1, &resp).unwrap().audit(0, &granting_rsp(2)), Err(refusal(16, RSP)));
}

#[test]
fn run_only() {
    let gap = of_kinds(Format::X, &[(0, Kind::Resp), (2, Kind::Resp)]);
    assert_eq!(read(Format::X, &gap), Err(refusal(10, 0)));
    let last = of_kinds(Format::Y, &[(9, Kind::Resp), (10, Kind::Resp), (11, Kind::Resp)]);
    assert!(read(Format::Y, &last).is_ok());
    let mut wrong = last;
    wrong[granule_start(11)] = 4;
    assert_eq!(read(Format::Y, &wrong), Err(refusal(7, 11)));
    let status = of_kinds(Format::X, &[(0, Kind::Resp), (1, Kind::LinkStatus)]);
    assert_eq!(read(Format::X, &status), Err(refusal(7, 1)));
}

#[test]
fn most_room_is_reached() {
    let carry = Part::of(&message(Kind::WrReqDataL)[..100]);
    let requests: Vec<_> = (1..GRANULES).map(|g| (g, Kind::ReqS)).collect();
    let mut room = [0xEE; 400];
    let (_, len) = crate::reader::read(Format::X, &carry, &of_kinds(Format::X, &requests), &mut room).unwrap();
    assert_eq!(len, 352);
    assert!(room[352..].iter().all(|&byte| byte == 0xEE));
}

#[test]
fn every_kind_is_written_and_read() {
    for format in [0, 1] {
        for kind in KINDS {
            let messages = vec![message(kind); 9];
            let containers = pack(format, &write_list(&messages)).unwrap();
            assert_eq!(read_all(Format::from_number(format).unwrap(), &containers), messages);
            assert!(containers.len() <= 18);
        }
    }
}

#[test]
fn records_beneath_g5() {
    for kind in [Kind::Resp, Kind::CrdtGrant, Kind::Connect] {
        let filled = fill_kinds(1, 0, &[Kind::WrReqDataL, kind, kind]);
        assert_eq!(starts(Format::Y, &filled.container), [0, 5, 7]);
        assert_eq!(filled.beneath, [5]);
        assert_eq!(starts(Format::X, &fill_kinds(0, 0, &[Kind::WrReqDataL, kind]).container), [0, 6]);
    }
}

#[test]
fn records_beneath_g11() {
    for kind in [Kind::Resp, Kind::Connect] {
        let filled = fill_kinds(1, 100, &[Kind::WrReqDataL, kind, Kind::ReqS]);
        assert_eq!(starts(Format::Y, &filled.container), [6, 11]);
        assert_eq!((filled.used, filled.tail.len), (121 + 11, 20));
        assert_eq!(filled.beneath, [11]);
    }
}

#[test]
fn records_not_beneath() {
    for kind in [Kind::Activation, Kind::Resp2, Kind::Property, Kind::ReqS] {
        let filled = fill_kinds(1, 0, &[Kind::WrReqDataL, kind, Kind::Resp]);
        assert_eq!(starts(Format::Y, &filled.container), [0, 7, 8]);
    }
    for kind in [Kind::Activation, Kind::CrdtGrant, Kind::Resp2, Kind::Property, Kind::LinkStatus] {
        let filled = fill_kinds(1, 100, &[Kind::WrReqDataL, kind, Kind::Resp]);
        assert_eq!(starts(Format::Y, &filled.container), [6]);
        assert_eq!((filled.used, filled.tail.len), (121, 20));
    }
    let second = fill_kinds(1, 60, &[Kind::CrdtGrant, Kind::ReqL, Kind::Connect]);
    assert_eq!(starts(Format::Y, &second.container), [3, 4, 7]);
    assert_eq!(second.beneath, []);
}

#[test]
fn orders_of_messages() {
    let kinds = [Kind::WrReqDataL, Kind::Resp, Kind::Resp2, Kind::DataL, Kind::ReqS];
    let messages = kinds.map(message).to_vec();
    let returned = read_all(Format::Y, &pack(1, &write_list(&messages)).unwrap());
    assert_eq!(returned, [1, 0, 2, 3, 4].map(|n| messages[n].clone()));
    assert!(is_returned(Format::Y, &messages, &returned) && !is_returned(Format::X, &messages, &returned));
    for (one, other) in [(0, 2), (0, 3), (0, 4), (1, 2)] {
        let mut swapped = messages.clone();
        swapped.swap(one, other);
        assert!(!is_returned(Format::Y, &messages, &swapped));
    }
    assert!(!is_returned(Format::Y, &messages, &returned[1..]));
    assert!(!is_returned(Format::Y, &messages, &[&returned[..], &returned[..1]].concat()));
}

#[test]
fn responses_go_first() {
    let responses = list_of(&[Kind::Resp, Kind::Resp2, Kind::Resp, Kind::Resp2, Kind::Resp, Kind::Resp]);
    let others = list_of(&[Kind::WrReqDataL, Kind::ReqS, Kind::Activation]);
    let mut feed = Feed::default();
    for (wanted, run) in "RRRRORROO-".chars().zip([1, 2, 3, 4, 0, 1, 2, 0, 0, 0]) {
        let handed = ask(0, &feed, &responses, &others).unwrap();
        assert_eq!((letter(handed.list), handed.feed.run), (wanted, run));
        feed = handed.feed;
    }
}

#[test]
fn runs_count_only_while_others_wait() {
    let (responses, others) = (list_of(&[Kind::Resp, Kind::Resp2]), list_of(&[Kind::ReqL]));
    let full = Feed { run: 4, ..Feed::default() };
    let alone = ask(1, &full, &responses, &[]).unwrap();
    assert_eq!((alone.list, alone.record), (Some(Waiting::Responses), &responses[..11]));
    assert_eq!(alone.feed, Feed { response: 11, other: 0, run: 0 });
    let beside = ask(1, &full, &responses, &others).unwrap();
    assert_eq!((beside.list, beside.record), (Some(Waiting::Others), &others[..]));
    assert_eq!(beside.feed, Feed { response: 0, other: 41, run: 0 });
}

#[test]
fn records_that_are_not_due() {
    let (responses, cut) = (list_of(&[Kind::Resp, Kind::ReqS]), &list_of(&[Kind::ReqL])[..40]);
    let first = ask(0, &Feed { run: 3, ..Feed::default() }, &responses, cut).unwrap();
    assert_eq!((first.record, first.feed), (&responses[..11], Feed { response: 11, other: 0, run: 4 }));
    let broken = Refused { list: Some(Waiting::Others), refusal: refusal(17, 0) };
    assert_eq!(ask(0, &first.feed, &responses, cut), Err(broken));
    let misplaced = Refused { list: Some(Waiting::Responses), refusal: refusal(17, 11) };
    assert_eq!(ask(0, &Feed { run: 3, ..first.feed }, &responses, cut), Err(misplaced));
}

#[test]
fn orders_of_causes_in_asks() {
    let (mut numbers, mut room) = ([0, 0, 5], [0xEE; 121]);
    assert_eq!(feed(0, &mut numbers[..2], &[], &[], &mut room), 19 << 24);
    assert_eq!(feed(0, &mut numbers, &[0; 5000], &[], &mut room[1..]), 19 << 24);
    numbers[2] = 4;
    assert_eq!(feed(2, &mut numbers, &[0; 5000], &[], &mut room[1..]), 19 << 24);
    assert_eq!(feed(0, &mut numbers, &[0; 5000], &[], &mut room[1..]), 2 << 24);
    assert_eq!(feed(0, &mut numbers, &[0; 5], &[0; 5000], &mut room), 18 << 24);
    assert_eq!(feed(0, &mut numbers, &[0; 5], &[0; 5], &mut room), (17 << 24) + (2 << 16));
    assert_eq!((numbers, room), ([0, 0, 4], [0xEE; 121]));
    assert_eq!(feed(0, &mut numbers, &[], &[], &mut room), 0);
    assert_eq!((numbers, room), ([0, 0, 0], [0xEE; 121]));
}

#[test]
fn orders_of_causes() {
    let mut room = [0; 351];
    assert_eq!(check(2, &[], &mut room), 19 * 65_536);
    assert_eq!(check(0, &[0; 255], &mut room), 65_536);
    assert_eq!(check(1, &[255; CONTAINER], &mut room), 2 * 65_536);
    assert_eq!(judge_fresh(1, &[255; CONTAINER]), 3 * 65_536);
    let bad = Part { len: 10, ..Part::none() };
    let grant = Grant { shared: true, plane: 9, ..Grant::default() };
    assert_eq!(fill(0, &bad, grant, &[0; 5000], 0), Err(refusal(19, 0)));
    assert_eq!(fill(0, &Part::none(), grant, &[0; 5000], 0), Err(refusal(1, 0)));
    assert_eq!(fill(0, &Part::none(), grant, &[0; 5000], CONTAINER), Err(refusal(18, 0)));
    assert_eq!(fill(0, &Part::none(), grant, &[0; 5], CONTAINER), Err(refusal(4, 0)));
    assert_eq!(fill(0, &Part::none(), Grant::default(), &[0; 5], CONTAINER), Err(refusal(17, 0)));
}

#[test]
fn carries_that_are_valid() {
    for kind in KINDS {
        let whole = message(kind);
        for len in 1..=100.min(whole.len()) {
            let valid = len % 20 == 0 && len < whole.len();
            assert_eq!(is_valid_carry(&Part::of(&whole[..len])), valid);
        }
    }
    let mut carry = Part::of(&message(Kind::DataL)[..40]);
    carry.bytes[99] = 1;
    assert!(!is_valid_carry(&carry));
    carry = Part::of(&message(Kind::DataL)[..40]);
    carry.bytes[0] += 32;
    assert!(!is_valid_carry(&carry));
    assert!(!is_valid_carry(&Part { len: 0, ..carry }));
}

#[test]
fn carried_messages_end() {
    for format in [Format::X, Format::Y] {
        for kind in KINDS {
            let whole = message(kind);
            for len in (20..whole.len()).step_by(20) {
                let reading = judge(format, &Part::of(&whole[..len]), &[0; CONTAINER]).unwrap();
                assert_eq!((reading.finished, reading.carry.len), (vec![whole.clone()], 0));
            }
        }
    }
}

#[test]
fn ledgers_that_are_valid() {
    let fresh = ledger(SHARED_DAT, 1);
    assert!(fresh.is_valid());
    let mut data = message(Kind::DataS);
    data[0] += 16;
    let mut carrying = fresh.clone();
    carrying.carries[1] = Part::of(&data[..60]);
    assert!(!carrying.is_valid());
    carrying.granted[1][SHARED_DAT] = 1;
    carrying.begun[1][SHARED_DAT] = 1;
    assert!(carrying.is_valid());
    assert_eq!(carrying.audit(2, &[]), Err(refusal(19, 0)));
    assert_eq!(carrying.audit(1, &[]), Err(refusal(1, 0)));
    carrying.granted[1][SHARED_DAT] = 2;
    assert!(!carrying.is_valid());
    assert_eq!(carrying.audit(1, &[]), Err(refusal(19, 0)));
    let mut dedicated = fresh.clone();
    dedicated.carries[0] = Part::of(&message(Kind::DataS)[..20]);
    assert!(!dedicated.is_valid());
    let mut plane = receiver(SHARED_DAT, 1);
    plane.capacities[2] = 1;
    assert_eq!(Ledger::fresh(0, [plane; 2]), Err(refusal(19, 0)));
}

#[test]
fn places_of_missing_pools() {
    let ledger = ledger(SHARED_DAT, 1);
    let audit = |messages: &[(usize, Vec<u8>)], grant| ledger.audit(0, &container(Format::X, messages, grant));
    let (none, missing) = (Grant::default(), Grant { plane: 1, ..Grant::default() });
    let (mut request, mut crdt_grant) = (message(Kind::ReqS), message(Kind::CrdtGrant));
    request[0] += 32;
    crdt_grant[2..7].copy_from_slice(&missing.to_form());
    for g in 0..GRANULES {
        let (pays, grants) = (behind_responses(g, &request), behind_responses(g, &crdt_grant));
        assert_eq!(audit(&pays, none), Err(refusal(14, g)));
        assert_eq!(audit(&pays, missing), Err(refusal(14, g)));
        assert_eq!(audit(&grants, none), Err(refusal(21, g)));
        assert_eq!(audit(&grants, missing), Err(refusal(21, 12)));
    }
    assert_eq!(audit(&[], missing), Err(refusal(21, 12)));
    assert_eq!(audit(&[(0, crdt_grant.clone()), (3, crdt_grant.clone())], none), Err(refusal(21, 0)));
    assert_eq!(audit(&[(0, crdt_grant), (3, request)], none), Err(refusal(14, 3)));
}

#[test]
fn logs() {
    let mut log = vec![0; 33];
    log[1] = 1;
    log[17] = 1;
    assert_eq!(verdict(&log).to_string(), "accepted 0");
    assert_eq!(verdict(&[]).to_string(), "refused 0 17 0");
    assert_eq!(verdict(&log[..20]).to_string(), "refused 0 17 20");
    assert_eq!(verdict(&[5, 0x80, 0]).to_string(), "refused 0 19 0");
    log.extend([0; 2 * 257]);
    assert_eq!(verdict(&log).to_string(), "accepted 2");
    assert_eq!(verdict(&log[..log.len() - 1]).to_string(), "refused 1 17 290");
    assert_eq!(crate::log::verdict_up_to(&log, 1).to_string(), "refused 1 18 0");
}
