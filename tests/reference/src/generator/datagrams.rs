//! Packets, good and damaged, with right hashes and made-up signatures.

use super::peers::{random_endpoint, random_port};
use super::random::Random;
use crate::keccak::keccak256;
use crate::packet::Endpoint;
use crate::rlp;

/// An item to encode; `Raw` bytes stand as they are.
#[derive(Clone)]
pub enum Tree {
    Bytes(Vec<u8>),
    List(Vec<Tree>),
    Raw(Vec<u8>),
}

impl Tree {
    pub fn encode(&self) -> Vec<u8> {
        match self {
            Tree::Bytes(bytes) => rlp::write_string(bytes),
            Tree::List(items) => rlp::write_list(&items.iter().map(Tree::encode).collect::<Vec<_>>()),
            Tree::Raw(bytes) => bytes.clone(),
        }
    }
}

fn integer(value: u64) -> Tree {
    Tree::Bytes(value.to_be_bytes().into_iter().skip_while(|byte| *byte == 0).collect())
}

fn endpoint(endpoint: &Endpoint) -> Vec<Tree> {
    let (udp, tcp) = (integer(endpoint.udp.into()), integer(endpoint.tcp.into()));
    vec![Tree::Bytes(endpoint.address.clone()), udp, tcp]
}

/// The data of a good packet of a type. A pong carries `ping_hash`.
pub fn data(random: &mut Random, number: u8, expiration: u64, ping_hash: &[u8]) -> Tree {
    let expiration = integer(expiration);
    let enr_seq = random.chance(40).then(|| integer(random.any_size()));
    let mut items = match number {
        1 => {
            let version = if random.chance(80) { 4 } else { random.any_size() };
            let mut from = random_endpoint(random);
            if random.chance(20) {
                from.address.clear(); // unknown
            }
            let from = Tree::List(endpoint(&from));
            let to = Tree::List(endpoint(&random_endpoint(random)));
            let mut items = vec![integer(version), from, to, expiration];
            items.extend(enr_seq);
            items
        }
        2 => {
            let to = Tree::List(endpoint(&random_endpoint(random)));
            let mut items = vec![to, Tree::Bytes(ping_hash.to_vec()), expiration];
            items.extend(enr_seq);
            items
        }
        3 => vec![Tree::Bytes(random.bytes(64)), expiration],
        4 => vec![nodes(random), expiration],
        5 => vec![expiration],
        _ => vec![Tree::Bytes(random.bytes(32)), record(random)],
    };
    // items after those known; Ping's and Pong's next one would be enr-seq
    let complete = match number {
        1 => items.len() == 5,
        2 => items.len() == 4,
        _ => true,
    };
    if complete && random.chance(15) {
        items.push(any_item(random));
    }
    Tree::List(items)
}

/// 0 to 12 nodes as a rule; up to 16 small ones at times, of which 16 don't fit a datagram.
fn nodes(random: &mut Random) -> Tree {
    let small = random.chance(30);
    let count = if small { random.between(11, 16) } else { random.between(0, 12) };
    let node = |random: &mut Random| {
        let mut to = random_endpoint(random);
        if small {
            to = Endpoint { address: random.bytes(4), udp: to.udp & 127, tcp: to.tcp & 127 };
        }
        let mut items = endpoint(&to);
        items.push(Tree::Bytes(random.bytes(64)));
        Tree::List(items)
    };
    Tree::List((0..count).map(|_| node(random)).collect())
}

/// A list of up to 300 bytes, the longest one often; its inside is anything.
fn record(random: &mut Random) -> Tree {
    let length = match random.below(4) {
        0 => 297, // with its three bytes of header 300
        1 => random.below(56),
        _ => random.between(56, 296) as usize,
    };
    Tree::List(vec![Tree::Raw(random.bytes(length))])
}

/// A whole and canonical item, with any inside if it is a list.
fn any_item(random: &mut Random) -> Tree {
    let length = *random.pick(&[0, 1, 2, 8, 9, 55, 56, 60]);
    let bytes = random.bytes(length);
    if random.chance(50) {
        Tree::Bytes(bytes)
    } else {
        Tree::List(vec![Tree::Raw(bytes)])
    }
}

// ----------------------------------------------------------------------------------------- damage

/// An item changed in one of the ways that the rules of reading tell apart. Not every change is a
/// fault where it happens to fall.
fn damaged(random: &mut Random, item: &Tree) -> Tree {
    let content = match item {
        Tree::Bytes(bytes) => bytes.clone(),
        other => other.encode(),
    };
    let short = &content[..content.len().min(55)];
    match random.below(17) {
        // headers that aren't shortest-form
        0 => {
            let byte = *random.pick(&[0x00, 0x01, 0x7e, 0x7f, 0x7f, 0x80]);
            Tree::Raw(vec![0x81, byte])
        }
        1 => Tree::Raw([&[0xb8, short.len() as u8], short].concat()),
        2 => Tree::Raw([&[0xf8, short.len() as u8], short].concat()),
        3 => Tree::Raw([&[0xb9, 0, content.len() as u8], &content[..]].concat()),
        4 => Tree::Raw([&[0xf9, 0, content.len() as u8], &content[..]].concat()),
        // items that aren't whole
        5 => Tree::Raw(item.encode()[..random.below(item.encode().len().max(1))].to_vec()),
        6 => {
            let first = *random.pick(&[0xb8, 0xbb, 0xbf, 0xf8, 0xfb, 0xff, 0xb7, 0xf7]);
            let digit = *random.pick(&[0xff, 0x7f, 0x01]);
            Tree::Raw([vec![first], vec![digit; random.below(9)]].concat())
        }
        // integers with leading zeros
        7 => Tree::Bytes(vec![0]),
        8 => Tree::Bytes([&[0], &content[..]].concat()),
        // too wide a number, or a string of some length
        9 => {
            let length = *random.pick(&[1, 2, 3, 4, 5, 8, 9, 15, 16, 17, 31, 32, 33, 63, 64, 65]);
            Tree::Bytes(random.bytes(length))
        }
        10 => {
            let mut longer = content.clone();
            longer.push(1);
            Tree::Bytes(longer)
        }
        11 => Tree::Bytes(content[..content.len().saturating_sub(1)].to_vec()),
        12 => Tree::Bytes(Vec::new()),
        // a list for a string, with any inside, or a string for a list
        13 => {
            let length = random.below(8);
            Tree::List(vec![Tree::Raw(random.bytes(length))])
        }
        14 => Tree::List(vec![Tree::Bytes(content)]),
        15 => Tree::Bytes(item.encode()),
        // a record that is too long
        _ => Tree::List(vec![Tree::Raw(random.bytes(298))]),
    }
}

/// Damages one item somewhere in the tree, or the number of a list's items.
fn damage(random: &mut Random, tree: &mut Tree) {
    let Tree::List(items) = tree else {
        *tree = damaged(random, tree);
        return;
    };
    match random.weighted(&[60, 10, 10, 10, 5, 5]) {
        0 if !items.is_empty() => {
            let index = random.below(items.len());
            if matches!(items[index], Tree::List(_)) && random.chance(70) {
                damage(random, &mut items[index]);
            } else {
                items[index] = damaged(random, &items[index]);
            }
        }
        1 if !items.is_empty() => {
            items.remove(random.below(items.len()));
        }
        2 => {
            let index = random.below(items.len() + 1);
            items.insert(index, any_item(random));
        }
        3 => items.push(any_item(random)),
        4 => {
            let item = any_item(random);
            items.push(damaged(random, &item));
        }
        _ => *tree = damaged(random, tree),
    }
}

/// The data of a damaged packet: one to three items, and at times the bytes.
pub fn damaged_data(random: &mut Random, number: u8, expiration: u64, ping_hash: &[u8]) -> Vec<u8> {
    let mut tree = data(random, number, expiration, ping_hash);
    for _ in 0..random.weighted(&[5, 65, 20, 10]) {
        damage(random, &mut tree);
    }
    let mut data = tree.encode();
    match random.below(12) {
        0 => data.truncate(random.below(data.len() + 1)),
        1 => data.extend(random.bytes(5)),
        2 if !data.is_empty() => {
            let index = random.below(data.len());
            data[index] ^= 1 << random.below(8);
        }
        3 => data = (*random.pick(&[&[][..], &[0xc0], &[0x80], &[0xc1], &[0xc1, 0x80], &[4]])).to_vec(),
        _ => {}
    }
    data
}

/// The whole datagram: right hash, made-up signature.
pub fn datagram(random: &mut Random, number: u8, data: &[u8]) -> Vec<u8> {
    let rest = [&random.bytes(65)[..], &[number], data].concat();
    [&keccak256(&rest)[..], &rest].concat()
}

/// A good datagram of a type, sometimes with bytes after its list.
pub fn good(random: &mut Random, number: u8, expiration: u64, ping_hash: &[u8]) -> Vec<u8> {
    let mut data = data(random, number, expiration, ping_hash).encode();
    if random.chance(10) {
        let length = random.between(1, 20) as usize;
        data.extend(random.bytes(length));
    }
    datagram(random, number, &data)
}

/// A datagram of a length near the limits, or with a wrong hash, or of an unknown type.
pub fn odd(random: &mut Random, number: u8, expiration: u64, ping_hash: &[u8]) -> Vec<u8> {
    match random.below(5) {
        0 => {
            let length = *random.pick(&[1, 32, 97, 98, 99, 1279, 1280, 1281, 1300]);
            let mut data = data(random, number, expiration, ping_hash).encode();
            data.resize(length.max(98) - 98, random_port(random) as u8);
            let mut whole = datagram(random, number, &data);
            whole.truncate(length);
            if length < 98 && length > 32 {
                let hash = keccak256(&whole[32..]);
                whole[..32].copy_from_slice(&hash);
            }
            whole
        }
        1 => {
            let mut whole = good(random, number, expiration, ping_hash);
            let anywhere = random.below(whole.len());
            let index = *random.pick(&[0, 31, 32, 96, 97, whole.len() - 1, anywhere]);
            whole[index] ^= 1 << random.below(8);
            whole
        }
        2 => {
            let number = *random.pick(&[0, 7, 8, 127, 128, 255]);
            let length = random.below(40);
            let data = random.bytes(length);
            datagram(random, number, &data)
        }
        _ => good(random, number, expiration, ping_hash),
    }
}
