//! Packets written and read, here and in the reference: generated values, many of them unwritable, in rooms
//! of every size; generated datagrams, good and damaged. COGHAMMER_CALLS says how many of each (20,000).

mod common;

use std::collections::BTreeMap;

use coghammer::{write, Endpoint, Node, Packet};
use common::{compare_reading, counted, fields, told};
use reference::generator::datagrams;
use reference::generator::peers::{random_endpoint, random_port};
use reference::generator::random::Random;
use reference::packet::{self, Recipient, Sender};
use reference::rlp;

fn address(random: &mut Random) -> Vec<u8> {
    match random.below(12) {
        0 => {
            let length = *random.pick(&[0, 1, 3, 5, 15, 17]);
            random.bytes(length)
        }
        _ => random_endpoint(random).address,
    }
}

/// Bytes of a length, now and then of one that is wrong.
fn sized(random: &mut Random, length: usize) -> Vec<u8> {
    let length = match random.below(12) {
        0 => *random.pick(&[0, 1, length - 1, length + 1]),
        _ => length,
    };
    random.bytes(length)
}

fn record(random: &mut Random) -> Vec<u8> {
    let inside = *random.pick(&[0, 1, 55, 56, 255, 256, 296, 297, 298, 300]);
    let mut record = rlp::write_list(&[random.bytes(inside)]);
    match random.below(10) {
        0 => record.push(0),
        1 => drop(record.pop()),
        2 => record = rlp::write_string(&random.bytes(40)),
        3 => record = [&[0xf8, 10][..], &random.bytes(10)].concat(),
        _ => {}
    }
    record
}

/// A value to write.
fn value(random: &mut Random, kind: usize) -> packet::Packet {
    let expiration = random.any_size();
    let enr_seq = random.chance(50).then(|| random.any_size());
    let to = Recipient { address: address(random), udp: random_port(random) };
    match kind {
        1 => {
            let mut from = Sender::from(random_endpoint(random));
            // an empty one is unknown
            from.address = Some(address(random)).filter(|address| !address.is_empty() && random.chance(80));
            packet::Packet::Ping { version: 4, from, to, expiration, enr_seq }
        }
        2 => packet::Packet::Pong { to, ping_hash: sized(random, 32), expiration, enr_seq },
        3 => packet::Packet::FindNode { target: sized(random, 64), expiration },
        4 => {
            let count = *random.pick(&[0, 1, 2, 3, 4, 11, 12, 13, 16, 17]);
            let node = |random: &mut Random| {
                let endpoint = random_endpoint(random);
                packet::Node { endpoint, key: random.bytes(64) }
            };
            packet::Packet::Neighbors { nodes: (0..count).map(|_| node(random)).collect(), expiration }
        }
        5 => packet::Packet::EnrRequest { expiration },
        _ => packet::Packet::EnrResponse { request_hash: sized(random, 32), record: record(random) },
    }
}

fn write_ours(packet: &packet::Packet, buf: &mut [u8]) -> Result<usize, u8> {
    told(match packet {
        packet::Packet::Ping { from, to, expiration, enr_seq, .. } => {
            let address = from.address.as_deref();
            write::ping(buf, address, from.udp, from.tcp, &to.address, to.udp, *expiration, *enr_seq)
        }
        packet::Packet::Pong { to, ping_hash, expiration, enr_seq } => {
            write::pong(buf, &to.address, to.udp, ping_hash, *expiration, *enr_seq)
        }
        packet::Packet::FindNode { target, expiration } => write::find_node(buf, target, *expiration),
        packet::Packet::Neighbors { nodes, expiration } => {
            let nodes: Vec<Node> = nodes.iter().map(common::node).collect();
            write::neighbors(buf, &nodes, *expiration)
        }
        packet::Packet::EnrRequest { expiration } => write::enr_request(buf, *expiration),
        packet::Packet::EnrResponse { request_hash, record } => {
            write::enr_response(buf, request_hash, record)
        }
    })
}

/// A room: exactly what is needed, one less, any.
fn room(random: &mut Random, needed: usize) -> usize {
    match random.below(6) {
        0 => 0,
        1 => needed.saturating_sub(1),
        2 => needed,
        3 => needed + 1,
        4 => random.below(needed + 1),
        _ => 1280,
    }
}

#[test]
fn written() {
    let total = common::calls(20_000);
    let mut random = Random::new(common::seed());
    let mut numbers: BTreeMap<(usize, u8), usize> = BTreeMap::new();
    for turn in 0..total {
        let kind = turn % 6 + 1;
        let packet = value(&mut random, kind);
        let body = packet::body(&packet);
        let length = room(&mut random, body.as_ref().map_or(100, Vec::len));
        let mut ours = random.bytes(length);
        let mut theirs = ours.clone();
        let answer = write_ours(&packet, &mut ours);
        assert_eq!(answer, packet::write(&packet, &mut theirs), "{packet:?} in {length}");
        assert_eq!(ours, theirs, "{packet:?} in {length}");
        *numbers.entry((kind, reference::table::number(&answer))).or_default() += 1;
        joined(&mut random, &packet, &body);
    }
    for kind in 1..=6 {
        assert!(numbers.contains_key(&(kind, 0)) && numbers.contains_key(&(kind, 19)), "kind {kind}");
        assert!(kind == 5 || numbers.contains_key(&(kind, 20)), "kind {kind}");
    }
    counted(total, "bodies written agree");
}

/// Joins a body, and reads the fields back.
fn joined(random: &mut Random, packet: &packet::Packet, body: &Result<Vec<u8>, u8>) {
    let signature = sized(random, 65);
    let any = match random.below(10) {
        0 => {
            let length = *random.pick(&[0, 1, 1183, 1184]);
            Some(random.bytes(length))
        }
        _ => None,
    };
    let Some(body) = any.as_ref().or(body.as_ref().ok()) else { return };
    let whole = packet::joined(&signature, body);
    let length = room(random, whole.as_ref().map_or(200, Vec::len));
    let mut ours = random.bytes(length);
    let mut theirs = ours.clone();
    let answer = told(write::join(&mut ours, &signature, body));
    assert_eq!(answer, packet::join(&signature, body, &mut theirs), "join in {length}");
    assert_eq!(ours, theirs, "join in {length}");
    if let (None, Ok(whole)) = (&any, whole) {
        let vec = write::in_vec(|buf| write::join(buf, &signature, body)).unwrap();
        assert_eq!(vec, whole);
        let read = Packet::read(&vec).expect("what is written reads back");
        assert_eq!(&fields(&read), packet, "what is written reads back as the same fields");
    }
}

/// Packed nodes of any bytes: an address length of 17, a length that is no multiple of 85, are 20.
#[test]
fn packed_nodes() {
    let mut random = Random::new(common::seed());
    for turn in 0..2000 {
        let count = random.below(18);
        let mut packed = Vec::new();
        for _ in 0..count {
            let len = *random.pick(&[4, 4, 4, 4, 4, 16, 16, 16]);
            packed.push(if turn % 3 == 0 && random.chance(20) { random.number() as u8 } else { len });
            packed.extend(random.bytes(84));
        }
        if random.chance(20) {
            packed.extend(random.bytes(*[1, 84, 86].get(turn % 3).unwrap()));
        }
        let nodes: Option<Vec<packet::Node>> = packed.chunks(85).map(unpacked).collect();
        let mut ours = random.bytes(1280);
        let mut theirs = ours.clone();
        let answer = told(write::neighbors_packed(&mut ours, &packed, 7));
        let wanted = match nodes {
            None => Err(20),
            Some(nodes) => packet::write(&packet::Packet::Neighbors { nodes, expiration: 7 }, &mut theirs),
        };
        assert_eq!(answer, wanted, "packed nodes {}", reference::hex(&packed));
        assert_eq!(ours, theirs);
    }
    counted(2000, "lists of packed nodes agree");
}

fn unpacked(bytes: &[u8]) -> Option<packet::Node> {
    let (length, rest) = bytes.split_first()?;
    if rest.len() != 84 || !matches!(length, 4 | 16) {
        return None;
    }
    let port = |at: usize| u16::from_be_bytes([rest[at], rest[at + 1]]);
    let address = rest[..usize::from(*length)].to_vec();
    let endpoint = packet::Endpoint { address, udp: port(16), tcp: port(18) };
    Some(packet::Node { endpoint, key: rest[20..].to_vec() })
}

#[test]
fn read() {
    let total = common::calls(20_000);
    let mut random = Random::new(common::seed());
    let mut numbers = [0; 11];
    for _ in 0..total {
        let (kind, expiration) = (random.between(1, 6) as u8, random.any_size());
        let hash = random.bytes(32);
        let datagram = match random.below(4) {
            0 => datagrams::good(&mut random, kind, expiration, &hash),
            1 => datagrams::odd(&mut random, kind, expiration, &hash),
            _ => {
                let data = datagrams::damaged_data(&mut random, kind, expiration, &hash);
                datagrams::datagram(&mut random, kind, &data)
            }
        };
        numbers[usize::from(compare_reading(&datagram))] += 1;
    }
    assert!([0, 8, 9, 10].iter().all(|number| numbers[*number] > 0), "{numbers:?}");
    counted(total, "datagrams read agree");
}

/// Node `n` where there is none, and nodes of a span that no packet gave.
#[test]
fn no_node() {
    let body = write::in_vec(|buf| write::neighbors(buf, &[], 9)).unwrap();
    let datagram = write::in_vec(|buf| write::join(buf, &[1; 65], &body)).unwrap();
    let Ok(Packet::Neighbors { nodes, .. }) = Packet::read(&datagram) else { panic!() };
    assert_eq!((nodes.count(), nodes.get(0), nodes.iter().count()), (0, None, 0));
    let endpoint = Endpoint::new(&[192, 0, 2, 7], 1, 2).unwrap();
    let node = Node { key: [5; 64], endpoint };
    let body = write::in_vec(|buf| write::neighbors(buf, &[node; 12], 9)).unwrap();
    let datagram = write::in_vec(|buf| write::join(buf, &[1; 65], &body)).unwrap();
    let Ok(Packet::Neighbors { nodes, .. }) = Packet::read(&datagram) else { panic!() };
    assert_eq!(nodes.iter().collect::<Vec<_>>(), [node; 12]);
    assert_eq!((nodes.get(11), nodes.get(12), nodes.get(usize::MAX)), (Some(node), None, None));
}
