//! Writes the log of examples/two-ports.md to standard output: the recording of a host with two
//! network ports, left (192.0.2.0/24) and right (198.51.100.0/24 and 2001:db8::/32). Keys and signatures
//! are made up, hashes are right.

use reference::calls::Call;
use reference::generator::logs::{line, own_line};
use reference::keccak::keccak256;
use reference::packet::{body, joined, Endpoint, Node, Packet, Recipient, Sender};
use reference::table::{bucket_number, distance};

/// The host's Unix time at box millisecond 0.
const UNIX: u64 = 1_700_000_000;

/// A key that begins with eight times the same byte.
fn key(name: u8, attempt: u64) -> [u8; 64] {
    let mut key = [name; 64];
    key[8..32].copy_from_slice(&keccak256(&attempt.to_be_bytes())[..24]);
    key[32..].copy_from_slice(&keccak256(&[name]));
    key
}

struct Peer {
    key: [u8; 64],
    endpoint: Endpoint,
}

/// A node that falls into a bucket of the host's table.
fn peer(own: &[u8; 64], name: u8, bucket: usize, address: &[u8], udp: u16, tcp: u16) -> Peer {
    let falls = |key: &[u8; 64]| bucket_number(&distance(&keccak256(own), &keccak256(key)));
    let key = (0..).map(|attempt| key(name, attempt)).find(|key| falls(key) == Some(bucket)).unwrap();
    Peer { key, endpoint: Endpoint { address: address.to_vec(), udp, tcp } }
}

/// The hash of the host's ping number `count`, as it would stand in the sent datagram.
fn ping_hash(count: u8) -> [u8; 32] {
    keccak256(&[b"ping"[..].to_vec(), vec![count]].concat())
}

fn sent(now: u64, to: &Peer, count: u8) -> Vec<u8> {
    let hash = ping_hash(count).to_vec();
    line(&Call::PingSent { now, key: to.key.to_vec(), endpoint: to.endpoint.clone(), hash })
}

fn rx(now: u64, from: &Peer, packet: &Packet) -> Vec<u8> {
    let signature = [&from.key[..], &[0]].concat(); // any 65 bytes
    let datagram = joined(&signature, &body(packet).unwrap()).unwrap();
    line(&Call::Datagram {
        now,
        unix: UNIX + now / 1000,
        address: from.endpoint.address.clone(),
        port: from.endpoint.udp,
        signer: from.key.to_vec(),
        datagram,
    })
}

fn main() {
    let own = key(0x01, 0);
    let anna = peer(&own, 0xaa, 255, &[192, 0, 2, 7], 30303, 30303);
    let bert = peer(&own, 0xbb, 255, &[198, 51, 100, 9], 30304, 30303);
    let cora = peer(&own, 0xcc, 254, &[192, 0, 2, 33], 30303, 0);
    let v6 = [0x20, 0x01, 0x0d, 0xb8, 0, 0, 0, 0, 0, 0, 0, 0, 0, 0, 0, 0x0d];
    let dora = peer(&own, 0xdd, 253, &v6, 30303, 30303);

    let expiration = UNIX + 20;
    let host = Recipient { address: vec![192, 0, 2, 1], udp: 30303 };
    let pong = |count| Packet::Pong {
        to: host.clone(),
        ping_hash: ping_hash(count).to_vec(),
        expiration,
        enr_seq: Some(1),
    };
    let ping = |from: &Peer, expiration| Packet::Ping {
        version: 4,
        from: from.endpoint.clone().into(),
        to: host.clone(),
        expiration,
        enr_seq: None,
    };
    let ping_from_nowhere = Packet::Ping {
        version: 4,
        from: Sender { address: None, udp: cora.endpoint.udp, tcp: cora.endpoint.tcp },
        to: host.clone(),
        expiration,
        enr_seq: None,
    };
    let find = Packet::FindNode { target: dora.key.to_vec(), expiration };
    let nodes = Packet::Neighbors {
        nodes: vec![Node { endpoint: dora.endpoint.clone(), key: dora.key.to_vec() }],
        expiration,
    };
    let anna_elsewhere = Peer { key: anna.key, endpoint: bert.endpoint.clone() };

    let lines = [
        own_line(16, &own),
        sent(100, &anna, 1),
        sent(120, &bert, 2),
        rx(250, &anna, &pong(1)),
        rx(310, &bert, &pong(2)),
        rx(400, &cora, &ping_from_nowhere),
        sent(410, &cora, 3),
        rx(450, &anna, &find),
        rx(455, &anna_elsewhere, &find),
        rx(500, &bert, &nodes),
        b"# 12:07 right cable replugged".to_vec(),
        sent(520, &dora, 4),
        rx(515, &anna, &ping(&anna, expiration)),
        rx(600, &cora, &find),
        sent(800, &anna, 5),
        line(&Call::Sweep { now: 910 }),
        line(&Call::Sweep { now: 911 }),
        rx(1020, &dora, &pong(4)),
        rx(1200, &bert, &ping(&bert, UNIX)),
        rx(1300, &anna, &pong(5)),
        sent(1310, &cora, 6),
    ];
    for line in lines {
        println!("{}", String::from_utf8(line).unwrap());
    }
}
