//! An own key and the nodes around it.

use super::random::Random;
use crate::keccak::keccak256;
use crate::packet::Endpoint;
use crate::table::{bucket_number, distance};

pub struct Peer {
    pub key: [u8; 64],
    pub endpoint: Endpoint,
}

pub struct Peers {
    pub own: [u8; 64],
    /// The peers of each bucket number, far buckets first; empty ones left out.
    pub buckets: Vec<Vec<Peer>>,
}

impl Peers {
    /// Draws `count` keys. Random keys fall into the far buckets; to have nodes in near ones too, the
    /// own key is one of the drawn keys whose hash has a close neighbour among the others: of 4,096
    /// hashes the closest two have about 23 leading bits in common.
    pub fn new(random: &mut Random, count: usize) -> Peers {
        let mut drawn: Vec<([u8; 32], [u8; 64])> = (0..count.max(2))
            .map(|_| {
                let key: [u8; 64] = random.array();
                (keccak256(&key), key)
            })
            .collect();
        drawn.sort();
        let mut candidates: Vec<(usize, usize)> = (1..drawn.len())
            .map(|i| (bucket_number(&distance(&drawn[i - 1].0, &drawn[i].0)).unwrap_or(0), i))
            .collect();
        candidates.sort();
        let (_, chosen) = candidates[random.below(candidates.len().min(32))];
        let (own_hash, own) = drawn.swap_remove(chosen);

        let mut by_number: Vec<Vec<Peer>> = (0..256).map(|_| Vec::new()).collect();
        let racks: Vec<Racks> = (0..256).map(|_| Racks::new(random)).collect();
        for (hash, key) in drawn {
            if let Some(number) = bucket_number(&distance(&own_hash, &hash)) {
                let mut endpoint = random_endpoint(random);
                racks[number].crowd(random, &mut endpoint);
                by_number[number].push(Peer { key, endpoint });
            }
        }
        by_number.retain(|peers| !peers.is_empty());
        by_number.reverse();
        Peers { own, buckets: by_number }
    }
}

/// Three ranges of a bucket that many of its nodes are of, two of them with the same first two bytes.
struct Racks {
    ranges: [[u8; 3]; 3],
    /// Of 100 nodes of the bucket.
    crowded: usize,
}

impl Racks {
    fn new(random: &mut Random) -> Racks {
        let [a, b, c]: [u8; 3] = random.array();
        let ranges = [[a, b, c], [a, b, c ^ 1 << random.below(8)], [a ^ 1 << random.below(8), b, c]];
        Racks { ranges, crowded: *random.pick(&[0, 10, 30, 70]) }
    }

    /// Gives a node an address of one of the ranges; at times one of 16 bytes that begins like it, or that is
    /// it, IPv4-mapped.
    fn crowd(&self, random: &mut Random, endpoint: &mut Endpoint) {
        if random.chance(self.crowded) {
            let mut address = [&random.pick(&self.ranges)[..], &random.bytes(1)].concat();
            match random.below(8) {
                0 => address.extend(random.bytes(12)),
                1 => address = mapped(&address),
                _ => {}
            }
            endpoint.address = address;
        }
    }
}

/// An IPv4 address in its 16-byte form.
pub fn mapped(address: &[u8]) -> Vec<u8> {
    [&[0; 10][..], &[255, 255], address].concat()
}

/// An address of 4 bytes or, one in four, of 16, and two ports.
pub fn random_endpoint(random: &mut Random) -> Endpoint {
    let address = if random.chance(25) { random.bytes(16) } else { random.bytes(4) };
    let udp = random_port(random);
    let tcp = if random.chance(70) { udp } else { random_port(random) };
    Endpoint { address, udp, tcp }
}

pub fn random_port(random: &mut Random) -> u16 {
    match random.below(4) {
        0 => 30303,
        1 => *random.pick(&[0, 1, 127, 128, 255, 256, 65535]),
        _ => random.number() as u16,
    }
}

/// Another address or another UDP port, often different in one bit only; also the IPv4 address in
/// its 16-byte form.
pub fn elsewhere(random: &mut Random, endpoint: &Endpoint) -> Endpoint {
    let mut other = endpoint.clone();
    match random.below(4) {
        0 => other.udp ^= 1 << random.below(16),
        1 => {
            let index = random.below(other.address.len());
            other.address[index] ^= 1 << random.below(8);
        }
        2 if other.address.len() == 4 => {
            other.address = mapped(&other.address);
        }
        2 => other.address.truncate(4),
        _ => other.address = random.bytes(4),
    }
    other
}
