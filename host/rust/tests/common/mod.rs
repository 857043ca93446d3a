//! What the tests share: values of the reference as values of the wrapper, and bounds.
#![allow(dead_code)]

use coghammer::{Accepted, Endpoint, Head, Listed, MonotonicMillis, Node, Number, Packet, Standing};
use reference::bucket::{Entry, PingState, PongOutcome};
use reference::packet;
use reference::table::{self, Outcome};

/// How many calls a test makes: `default`, or what the environment says.
pub fn calls(default: usize) -> usize {
    bound("COGHAMMER_CALLS", default)
}

/// The first seed: 1, or what the environment says.
pub fn seed() -> u64 {
    bound("COGHAMMER_SEED", 1) as u64
}

fn bound(name: &str, default: usize) -> usize {
    match std::env::var(name) {
        Err(_) => default,
        Ok(text) => text.parse().unwrap_or_else(|_| panic!("{name} is {text}, not a number")),
    }
}

/// A line of counts for tests/capi/compare.
pub fn counted(count: usize, what: &str) {
    println!("\ncounted {count} {what}");
}

pub fn node(node: &packet::Node) -> Node {
    let packet::Endpoint { address, udp, tcp } = &node.endpoint;
    let endpoint = Endpoint::new(address, *udp, *tcp).expect("an address of 4 or 16 bytes");
    Node { key: node.key[..].try_into().expect("a key of 64 bytes"), endpoint }
}

/// What the reference tells of an accepted closest call, as the wrapper says it.
pub fn listed((nodes, distances): &(Vec<packet::Node>, usize)) -> Listed {
    Listed { count: nodes.len(), distances: *distances }
}

/// The answer of the reference, as the wrapper says it.
pub fn accepted(answer: &table::Accepted) -> Accepted {
    match (&answer.outcome, answer.packet.number()) {
        (Outcome::Ping { ping_due }, _) => Accepted::Ping { ping_due: *ping_due },
        (Outcome::Pong(PongOutcome::Tail), _) => Accepted::Pong(Standing::Tail),
        (Outcome::Pong(PongOutcome::Seat), _) => Accepted::Pong(Standing::TookEntry),
        (Outcome::Pong(PongOutcome::Wait { .. }), _) => Accepted::Pong(Standing::Waiting),
        (Outcome::Pong(PongOutcome::RangeFull), _) => Accepted::Pong(Standing::RangeFull),
        (Outcome::Other, 3) => Accepted::FindNode,
        (Outcome::Other, 4) => Accepted::Neighbors,
        (Outcome::Other, 5) => Accepted::EnrRequest,
        (Outcome::Other, _) => Accepted::EnrResponse,
    }
}

pub fn head(node: Node, ping: PingState) -> Head {
    let ping_out = match ping {
        PingState::Quiet => None,
        PingState::Out(since) => Some(MonotonicMillis(since)),
    };
    Head { node, ping_out }
}

pub fn head_of(entry: &Entry) -> Head {
    head(node(&entry.node()), entry.ping)
}

/// The fields that the wrapper has read, as the reference has them.
pub fn fields(packet: &Packet) -> packet::Packet {
    match packet {
        Packet::Ping { version, from, from_udp, from_tcp, to, to_udp, expiration, enr_seq } => {
            packet::Packet::Ping {
                version: *version,
                from: packet::Sender {
                    address: from.map(|address| address.to_vec()),
                    udp: *from_udp,
                    tcp: *from_tcp,
                },
                to: packet::Recipient { address: to.to_vec(), udp: *to_udp },
                expiration: *expiration,
                enr_seq: *enr_seq,
            }
        }
        Packet::Pong { to, to_udp, ping_hash, expiration, enr_seq } => packet::Packet::Pong {
            to: packet::Recipient { address: to.to_vec(), udp: *to_udp },
            ping_hash: ping_hash.to_vec(),
            expiration: *expiration,
            enr_seq: *enr_seq,
        },
        Packet::FindNode { target, expiration } => {
            packet::Packet::FindNode { target: target.to_vec(), expiration: *expiration }
        }
        Packet::Neighbors { nodes, expiration } => {
            let nodes = nodes.iter().map(|node| {
                let Endpoint { udp, tcp, .. } = node.endpoint;
                let endpoint = packet::Endpoint { address: node.endpoint.ip().to_vec(), udp, tcp };
                packet::Node { endpoint, key: node.key.to_vec() }
            });
            packet::Packet::Neighbors { nodes: nodes.collect(), expiration: *expiration }
        }
        Packet::EnrRequest { expiration } => packet::Packet::EnrRequest { expiration: *expiration },
        Packet::EnrResponse { request_hash, record } => {
            packet::Packet::EnrResponse { request_hash: request_hash.to_vec(), record: record.to_vec() }
        }
    }
}

/// An answer with its number as the reference has it.
pub fn told<T>(answer: Result<T, Number>) -> Result<T, u8> {
    answer.map_err(|number| number.0)
}

/// Compares what is read of any datagram; gives the number.
pub fn compare_reading(datagram: &[u8]) -> u8 {
    let ours = told(Packet::read(datagram).map(|packet| fields(&packet)));
    // the reference reads only datagrams of a good length
    let theirs = if datagram.len() < packet::HEADER { Err(8) } else { packet::read(datagram) };
    assert_eq!(ours, theirs, "fields of {}", reference::hex(datagram));
    table::number(&theirs)
}
