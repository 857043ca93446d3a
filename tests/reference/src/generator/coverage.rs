//! Counts of the answers, and of the cases at the edges of the rules, that a log reaches.

use std::collections::{BTreeMap, VecDeque};
use std::fmt;

use super::peers::mapped;
use crate::bucket::{range, Bucket, Entry, PingState, ENTRIES, PING_TIMEOUT, PROOF_LIFETIME, REPLACEMENTS};
use crate::calls::Call;
use crate::log::{read, Line, Replay};
use crate::packet::{self, Packet};

/// Every case that is counted. A few seeds together must reach all of them.
#[rustfmt::skip]
pub const CASES: [&str; 54] = [
    "answer 0", "answer 1", "answer 2", "answer 3", "answer 4", "answer 5", "answer 6", "answer 7",
    "answer 8", "answer 9", "answer 10", "answer 11", "answer 12", "answer 13", "answer 14",
    "answer 15", "answer 16", "answer 17", "answer 18", "answer 21",
    "pong", "pong ping", "tail", "seat", "wait, head quiet", "wait, head pinged", "find", "nodes",
    "enr", "record",
    "pong after 500 ms", "pong after 501 ms",
    "sweep at 500 ms", "sweep at 501 ms",
    "sweep seats a waiting node", "sweep seats two or more",
    "range full, seats free", "range full, no seat free", "wait, range free, no seat free",
    "sweep passes over a range and seats one behind it", "sweep frees a range and fills it",
    "sweep seats the first of two of a range", "mapped address seated beside its range full",
    "16-byte address seated beside two that begin alike",
    "sweep at 43,200,000 ms, waiting", "sweep at 43,200,001 ms, waiting",
    "sweep drops an old proof with a ping out in time",
    "proof of 43,200,000 ms verifies", "proof of 43,200,001 ms doesn't",
    "bucket with 16 and 4",
    "16-byte address accepted", "13 or more nodes accepted", "line of 3,000 bytes",
    "ping from an unknown address accepted",
];

/// Cases of the pong of a waiting node, and how its answer begins.
const PONG_CASES: [(&str, &str); 5] = [
    ("range full, seats free", "0\twait"),
    ("range full, no seat free", "0\twait"),
    ("wait, range free, no seat free", "0\twait\t"),
    ("mapped address seated beside its range full", "0\tseat"),
    ("16-byte address seated beside two that begin alike", "0\tseat"),
];

/// Those that the pong of a waiting node at this address comes to, by the bucket before it.
fn pong_cases(bucket: &Bucket, address: &[u8]) -> Vec<&'static str> {
    let mut cases = Vec::new();
    let free = bucket.entries.len() < ENTRIES;
    match (bucket.is_range_full(address), free) {
        (true, true) => cases.push("range full, seats free"),
        (true, false) => cases.push("range full, no seat free"),
        (false, false) if address.len() == 4 => cases.push("wait, range free, no seat free"),
        _ => {}
    }
    if address.len() == 16 && free {
        if address[..12] == mapped(&[])[..] && bucket.is_range_full(&address[12..]) {
            cases.push("mapped address seated beside its range full");
        }
        let alike = |entry: &&Entry| entry.endpoint.address[..3] == address[..3];
        if bucket.entries.iter().filter(alike).count() >= 2 {
            cases.push("16-byte address seated beside two that begin alike");
        }
    }
    cases
}

#[derive(Default)]
pub struct Coverage {
    counts: BTreeMap<&'static str, u64>,
    /// Cases of the line under way, by the state before it.
    pending: Vec<&'static str>,
}

impl Coverage {
    pub fn count(&self, case: &str) -> u64 {
        self.counts.get(case).copied().unwrap_or(0)
    }

    pub fn add(&mut self, other: &Coverage) {
        for (case, count) in &other.counts {
            *self.counts.entry(case).or_default() += count;
        }
    }

    fn raise(&mut self, case: &str) {
        if let Some(known) = CASES.iter().find(|known| **known == case) {
            *self.counts.entry(known).or_default() += 1;
        }
    }

    /// Looks at the state before a line.
    pub fn before(&mut self, replay: &Replay, line: &[u8]) {
        self.pending.clear();
        let (Some(table), Some(Line::Call(call))) = (&replay.table, read(line)) else { return };
        let pending = &mut self.pending;
        match &call {
            Call::Sweep { now } if *now >= table.clock => {
                let age = |time: &u64| *now - *time;
                for bucket in &table.buckets {
                    let out = |entry: &Entry| match entry.ping {
                        PingState::Out(since) => Some(age(&since)),
                        PingState::Quiet => None,
                    };
                    let overdue = |entry: &Entry| out(entry).is_some_and(|age| age > PING_TIMEOUT);
                    for entry in bucket.entries.iter().chain(&bucket.replacements) {
                        match out(entry) {
                            Some(500) => pending.push("sweep at 500 ms"),
                            Some(501) => pending.push("sweep at 501 ms"),
                            _ => {}
                        }
                    }
                    let waiting = || bucket.replacements.iter().filter(|entry| !overdue(entry));
                    let proofs = || waiting().filter_map(|entry| Some((entry, age(&entry.proof?))));
                    for (entry, age) in proofs() {
                        if age == PROOF_LIFETIME {
                            pending.push("sweep at 43,200,000 ms, waiting");
                        }
                        if age == PROOF_LIFETIME + 1 {
                            pending.push("sweep at 43,200,001 ms, waiting");
                        }
                        if age > PROOF_LIFETIME && out(entry).is_some() {
                            pending.push("sweep drops an old proof with a ping out in time");
                        }
                    }
                    // those that a sweep seats, and those that it passes over
                    let mut swept = bucket.clone();
                    swept.sweep(*now);
                    let is_in =
                        |line: &VecDeque<Entry>, entry: &Entry| line.iter().any(|e| e.key == entry.key);
                    let seated = |entry: &&Entry| is_in(&swept.entries, entry);
                    let passed = |entry: &&Entry| entry.proof.is_some() && is_in(&swept.replacements, entry);
                    let line = &bucket.replacements;
                    if line.iter().filter(seated).count() >= 1 {
                        pending.push("sweep seats a waiting node");
                    }
                    if line.iter().filter(seated).count() >= 2 {
                        pending.push("sweep seats two or more");
                    }
                    let first = line.iter().position(|entry| passed(&entry));
                    if first.is_some_and(|first| line.iter().skip(first).any(|entry| seated(&entry))) {
                        pending.push("sweep passes over a range and seats one behind it");
                    }
                    for entry in line.iter().filter(seated) {
                        let address = &entry.endpoint.address;
                        if bucket.is_range_full(address) && swept.is_range_full(address) {
                            pending.push("sweep frees a range and fills it");
                        }
                        let second = |other: &Entry| {
                            passed(&other) && range(&other.endpoint.address) == range(address)
                        };
                        if swept.entries.len() < ENTRIES && line.iter().any(second) {
                            pending.push("sweep seats the first of two of a range");
                        }
                    }
                }
            }
            Call::Datagram { now, address, port, signer, datagram, .. } if *now >= table.clock => {
                let held = (signer.len() == 64).then(|| table.held(signer)).flatten();
                let Some(entry) = held.filter(|entry| entry.is_at(address, *port)) else { return };
                let kind = datagram.get(97).copied().unwrap_or(0);
                let bucket = &table.buckets[table.index(&entry.id).expect("a held node's bucket is kept")];
                if kind == 2 && bucket.replacements.contains(entry) {
                    pending.extend(pong_cases(bucket, address));
                }
                match entry.ping {
                    PingState::Out(since) if kind == 2 && now - since == 500 => {
                        pending.push("pong after 500 ms")
                    }
                    PingState::Out(since) if kind == 2 && now - since == 501 => {
                        pending.push("pong after 501 ms")
                    }
                    _ => {}
                }
                match entry.proof.map(|proof| now - proof) {
                    Some(PROOF_LIFETIME) if kind != 2 => pending.push("proof of 43,200,000 ms verifies"),
                    Some(43_200_001) if kind > 2 => pending.push("proof of 43,200,001 ms doesn't"),
                    _ => {}
                }
            }
            _ => {}
        }
    }

    /// Counts the line with its answer.
    pub fn after(&mut self, replay: &Replay, line: &[u8], answer: &str) {
        let mut fields = answer.split('\t');
        let number = fields.next().unwrap_or("");
        self.raise(&format!("answer {number}"));
        for case in std::mem::take(&mut self.pending) {
            // what a waiting node's pong must be answered with
            if let Some((_, words)) = PONG_CASES.iter().find(|(known, _)| *known == case) {
                if answer == *words || words.ends_with('\t') && answer.starts_with(words) {
                    self.raise(case);
                }
                continue;
            }
            let expected = match case {
                "pong after 501 ms" => "15",
                "proof of 43,200,001 ms doesn't" => "13",
                _ => "0",
            };
            if number == expected {
                self.raise(case);
            }
        }
        if line.len() == 3000 && number != "21" {
            self.raise("line of 3,000 bytes");
        }
        if number != "0" {
            return;
        }
        let values: Vec<&str> = fields.collect();
        match &values[..] {
            ["wait"] => {} // told by the state before it
            ["wait", _, "quiet"] => self.raise("wait, head quiet"),
            ["wait", ..] => self.raise("wait, head pinged"),
            _ => self.raise(&values.join(" ")),
        }
        let Some(Line::Call(call)) = read(line) else { return };
        if let Call::Datagram { address, datagram, .. } = &call {
            if address.len() == 16 {
                self.raise("16-byte address accepted");
            }
            match packet::read(datagram) {
                Ok(Packet::Neighbors { nodes, .. }) if nodes.len() > 12 => {
                    self.raise("13 or more nodes accepted");
                }
                Ok(Packet::Ping { from, .. }) if from.address.is_none() => {
                    self.raise("ping from an unknown address accepted");
                }
                _ => {}
            }
        }
        let full = replay.table.as_ref().is_some_and(|table| {
            table
                .buckets
                .iter()
                .any(|bucket| bucket.entries.len() == ENTRIES && bucket.replacements.len() == REPLACEMENTS)
        });
        if full {
            self.raise("bucket with 16 and 4");
        }
    }
}

impl fmt::Display for Coverage {
    fn fmt(&self, f: &mut fmt::Formatter) -> fmt::Result {
        for case in CASES {
            writeln!(f, "{:>9}  {case}", self.count(case))?;
        }
        Ok(())
    }
}
