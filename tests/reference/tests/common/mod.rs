//! What the tests share.
#![allow(dead_code)] // each test file uses its part

use reference::keccak::keccak256;
use reference::log::Replay;
use reference::packet::{body, joined, Packet, Recipient};
use reference::table::{bucket_number, distance};
use reference::{hex, Number};

/// The bytes of a hex text; blanks are left out.
pub fn bytes(text: &str) -> Vec<u8> {
    let digits: Vec<u32> =
        text.chars().filter(|c| *c != ' ').map(|c| c.to_digit(16).expect("a hex digit")).collect();
    assert_eq!(digits.len() % 2, 0, "whole bytes");
    digits.chunks(2).map(|pair| (pair[0] * 16 + pair[1]) as u8).collect()
}

pub fn outcome<T>(answer: &Result<T, Number>) -> Number {
    reference::table::number(answer)
}

/// A datagram with a right hash and a signature of 65 bytes 2a.
pub fn datagram(number: u8, data: &[u8]) -> Vec<u8> {
    joined(&[0x2a; 65], &[&[number], data].concat()).unwrap()
}

/// A datagram of the form that is written.
pub fn packet(packet: &Packet) -> Vec<u8> {
    joined(&[0x2a; 65], &body(packet).unwrap()).unwrap()
}

pub const OWN: [u8; 64] = [0xee; 64];
pub const V4: [u8; 4] = [0xc0, 0, 2, 7];
pub const PORT: u16 = 30303;

/// Different keys that fall into a bucket of the table with own key OWN.
pub fn keys(bucket: usize, count: usize) -> Vec<[u8; 64]> {
    let own = keccak256(&OWN);
    let mut found = Vec::new();
    for n in 0u64.. {
        if found.len() == count {
            break;
        }
        let mut key = [0x11; 64];
        key[..8].copy_from_slice(&n.to_be_bytes());
        if bucket_number(&distance(&own, &keccak256(&key))) == Some(bucket) {
            found.push(key);
        }
    }
    found
}

pub fn ping(expiration: u64) -> Vec<u8> {
    let to = Recipient { address: V4.to_vec(), udp: PORT };
    let from = reference::packet::Endpoint { address: V4.to_vec(), udp: PORT, tcp: PORT };
    packet(&Packet::Ping { version: 4, from: from.into(), to, expiration, enr_seq: None })
}

pub fn pong(ping_hash: &[u8]) -> Vec<u8> {
    let to = Recipient { address: V4.to_vec(), udp: PORT };
    packet(&Packet::Pong { to, ping_hash: ping_hash.to_vec(), expiration: u64::MAX, enr_seq: None })
}

pub fn find_node() -> Vec<u8> {
    packet(&Packet::FindNode { target: vec![7; 64], expiration: u64::MAX })
}

/// A log written line by line; each call gives the answer. A node is named by its key; its ping hash
/// is 32 times its number.
pub struct Log {
    pub replay: Replay,
}

impl Log {
    /// With an accepted `own` of 16 buckets.
    pub fn new() -> Log {
        let mut log = Log { replay: Replay::default() };
        assert_eq!(log.line(&format!("own\t16\t{}", hex(&OWN))), "0");
        log
    }

    pub fn line(&mut self, line: &str) -> String {
        self.replay.line(line.as_bytes())
    }

    pub fn rx_from(&mut self, now: u64, address: &[u8], port: u16, key: &[u8], datagram: &[u8]) -> String {
        let (address, key) = (hex(address), hex(key));
        self.line(&format!("rx\t{now}\t0\t{address}\t{port}\t{key}\t{}", hex(datagram)))
    }

    pub fn rx(&mut self, now: u64, key: &[u8], datagram: &[u8]) -> String {
        self.rx_from(now, &address_of(key), PORT, key, datagram)
    }

    pub fn sent_to(&mut self, now: u64, key: &[u8], address: &[u8], port: u16) -> String {
        let (key, address, hash) = (hex(key), hex(address), hex(&hash_of(key)));
        self.line(&format!("sent\t{now}\t{key}\t{address}\t{port}\t{PORT}\t{hash}"))
    }

    pub fn sent(&mut self, now: u64, key: &[u8]) -> String {
        self.sent_to(now, key, &address_of(key), PORT)
    }

    pub fn pong(&mut self, now: u64, key: &[u8]) -> String {
        self.rx(now, key, &pong(&hash_of(key)))
    }

    pub fn sweep(&mut self, now: u64) -> String {
        self.line(&format!("sweep\t{now}"))
    }

    /// Pings a node and has it answer at the same millisecond.
    pub fn meet(&mut self, now: u64, key: &[u8]) -> String {
        self.meet_at(now, key, &address_of(key))
    }

    /// The same at an address.
    pub fn meet_at(&mut self, now: u64, key: &[u8], address: &[u8]) -> String {
        assert_eq!(self.sent_to(now, key, address, PORT), "0");
        self.pong_from(now, key, address)
    }

    pub fn pong_from(&mut self, now: u64, key: &[u8], address: &[u8]) -> String {
        self.rx_from(now, address, PORT, key, &pong(&hash_of(key)))
    }

    pub fn printout(&self) -> String {
        self.replay.printout()
    }

    /// The printout's lines of seats or waiting nodes, by `word`: first eight key bytes of each.
    pub fn order(&self, word: &str) -> Vec<String> {
        let printout = self.printout();
        let lines = printout.lines().map(|line| line.split('\t').collect::<Vec<_>>());
        lines.filter(|fields| fields[0] == word).map(|fields| fields[3].to_string()).collect()
    }

    /// The printout's line of a node.
    pub fn line_of(&self, key: &[u8]) -> Option<String> {
        let name = hex(&key[..8]);
        self.printout().lines().find(|line| line.contains(&name)).map(str::to_string)
    }
}

/// Where a test has a node: each in a range of its own.
pub fn address_of(key: &[u8]) -> [u8; 4] {
    [192, key[6], key[7], 7]
}

/// The ping hash that a test uses for a node.
pub fn hash_of(key: &[u8]) -> [u8; 32] {
    [key[7]; 32]
}

pub fn names(keys: &[[u8; 64]]) -> Vec<String> {
    keys.iter().map(|key| hex(&key[..8])).collect()
}
