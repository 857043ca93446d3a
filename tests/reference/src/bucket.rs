//! One bucket: its entries ("seats"), its replacements ("the waiting line") and what the rules do to them.

use std::collections::VecDeque;

use crate::packet::{Endpoint, Node};

/// "Sixteen seats and four waiting places are constants of the bucket."
pub const ENTRIES: usize = 16;
pub const REPLACEMENTS: usize = 4;
/// "Of the seats of a bucket at most two may have 4-byte addresses with the same first three bytes (a
/// range)" (C-16).
pub const OF_A_RANGE: usize = 2;
/// A ping is answered "in time up to and including 500 ms".
pub const PING_TIMEOUT: u64 = 500;
/// A node is verified while "its proof is at most 43,200,000 ms old".
pub const PROOF_LIFETIME: u64 = 43_200_000;

/// "its ping state, quiet or out since a stated millisecond"
#[derive(Clone, Copy, Debug, PartialEq, Eq)]
pub enum PingState {
    Quiet,
    Out(u64),
}

/// Document 01's place: "Each place carries its ping state, [..] with the key, endpoint, last seen,
/// proof time and ping hash."
#[derive(Clone, Debug, PartialEq, Eq)]
pub struct Entry {
    pub key: [u8; 64],
    /// Keccak-256 of the key, worked out once.
    pub id: [u8; 32],
    pub endpoint: Endpoint,
    pub last_seen: u64,
    pub proof: Option<u64>,
    pub ping: PingState,
    pub ping_hash: [u8; 32],
}

impl Entry {
    /// T6: a held node's endpoint is address and UDP port; the TCP port isn't compared.
    pub fn is_at(&self, address: &[u8], udp: u16) -> bool {
        self.endpoint.address == address && self.endpoint.udp == udp
    }

    /// "A node is verified at an endpoint if it is held at that address and UDP port and its proof is
    /// at most 43,200,000 ms old."
    pub fn is_verified(&self, now: u64, address: &[u8], udp: u16) -> bool {
        self.is_at(address, udp) && self.proof.is_some_and(|proof| now - proof <= PROOF_LIFETIME)
    }

    /// Its "ping went out more than 500 ms ago".
    pub fn is_overdue(&self, now: u64) -> bool {
        matches!(self.ping, PingState::Out(since) if now - since > PING_TIMEOUT)
    }

    /// Its proof is "older than 43,200,000 ms".
    fn has_old_proof(&self, now: u64) -> bool {
        self.proof.is_some_and(|proof| now - proof > PROOF_LIFETIME)
    }

    /// The node record of an entry.
    pub fn node(&self) -> Node {
        Node { endpoint: self.endpoint.clone(), key: self.key.to_vec() }
    }
}

/// The range of an address; "16-byte addresses aren't counted", IPv4-mapped or not.
pub fn range(address: &[u8]) -> Option<&[u8]> {
    (address.len() == 4).then(|| &address[..3])
}

#[derive(Clone, Debug, Default, PartialEq, Eq)]
pub struct Bucket {
    /// The seats, head first. "Head is the seat put at the tail longest ago."
    pub entries: VecDeque<Entry>,
    /// The waiting line, first come first.
    pub replacements: VecDeque<Entry>,
}

/// Where a key is held in its bucket.
#[derive(Clone, Copy)]
pub enum Position {
    Entry(usize),
    Replacement(usize),
}

impl Bucket {
    pub fn find(&self, key: &[u8]) -> Option<Position> {
        let entry = self.entries.iter().position(|entry| entry.key == key);
        let replacement = self.replacements.iter().position(|entry| entry.key == key);
        entry.map(Position::Entry).or(replacement.map(Position::Replacement))
    }

    pub fn get(&self, position: Position) -> &Entry {
        match position {
            Position::Entry(index) => &self.entries[index],
            Position::Replacement(index) => &self.replacements[index],
        }
    }

    pub fn get_mut(&mut self, position: Position) -> &mut Entry {
        match position {
            Position::Entry(index) => &mut self.entries[index],
            Position::Replacement(index) => &mut self.replacements[index],
        }
    }

    pub fn held(&self, key: &[u8]) -> Option<&Entry> {
        self.find(key).map(|position| self.get(position))
    }

    /// How many seats are of the address's range; 0 for an address without one.
    pub fn of_range(&self, address: &[u8]) -> usize {
        let same = |entry: &&Entry| range(&entry.endpoint.address) == range(address);
        range(address).map_or(0, |_| self.entries.iter().filter(same).count())
    }

    /// "its range has two seats"
    pub fn is_range_full(&self, address: &[u8]) -> bool {
        self.of_range(address) >= OF_A_RANGE
    }

    /// "a free seat and, for a 4-byte address, fewer than two seats of its range"
    pub fn has_seat_for(&self, address: &[u8]) -> bool {
        self.entries.len() < ENTRIES && !self.is_range_full(address)
    }

    /// "at most two seats of a range", and "proved waiting nodes beside free seats only if their range is at
    /// two" (C-16)
    pub fn keeps_ranges(&self) -> bool {
        let two = |entry: &Entry| self.of_range(&entry.endpoint.address) <= OF_A_RANGE;
        let waits = |entry: &Entry| entry.proof.is_none() || !self.has_seat_for(&entry.endpoint.address);
        self.entries.iter().all(two) && self.replacements.iter().all(waits)
    }

    fn move_to_tail(&mut self, index: usize) {
        let entry = self.entries.remove(index).unwrap();
        self.entries.push_back(entry);
    }

    /// An accepted pong: "Then proof and last seen become now, ping quiet." The ping hash stays (T2).
    pub fn pong(&mut self, position: Position, now: u64) -> PongOutcome {
        let entry = self.get_mut(position);
        entry.proof = Some(now);
        entry.last_seen = now;
        entry.ping = PingState::Quiet;
        match position {
            // "A seated node goes to the tail."
            Position::Entry(index) => {
                self.move_to_tail(index);
                PongOutcome::Tail
            }
            // "A waiting node isn't seated while its range has two seats, even with seats free, and its
            // pong then names no head"
            Position::Replacement(index)
                if self.is_range_full(&self.replacements[index].endpoint.address) =>
            {
                PongOutcome::RangeFull
            }
            // "A waiting node takes a free seat at the tail,
            Position::Replacement(index) if self.entries.len() < ENTRIES => {
                let entry = self.replacements.remove(index).unwrap();
                self.entries.push_back(entry);
                PongOutcome::Seat
            }
            // else stays in line, and the answer names the head seat and whether a ping is out to it."
            Position::Replacement(_) => {
                let head = &self.entries[0];
                PongOutcome::Wait { head: head.node(), ping: head.ping }
            }
        }
    }

    /// Another accepted packet from a verified sender: "a verified seated sender goes to the tail and
    /// is last seen now; a verified waiting one is last seen now, its place in line kept."
    pub fn heard(&mut self, position: Position, now: u64) {
        self.get_mut(position).last_seen = now;
        if let Position::Entry(index) = position {
            self.move_to_tail(index);
        }
    }

    pub fn sweep(&mut self, now: u64) {
        // "remove every node, seated or waiting, whose ping went out more than 500 ms ago;
        self.entries.retain(|entry| !entry.is_overdue(now));
        self.replacements.retain(|entry| !entry.is_overdue(now));
        // then every waiting node with a proof older than 43,200,000 ms;
        self.replacements.retain(|entry| !entry.has_old_proof(now));
        // then seat proved waiting nodes in line order at the tail while seats are free, ping state
        // and last seen kept." Nodes whose range has two seats are passed over; a seat given in this
        // sweep counts, one lost in it doesn't.
        let may = |bucket: &Bucket, entry: &Entry| {
            entry.proof.is_some() && bucket.has_seat_for(&entry.endpoint.address)
        };
        while let Some(first) = self.replacements.iter().position(|entry| may(self, entry)) {
            let entry = self.replacements.remove(first).unwrap();
            self.entries.push_back(entry);
        }
    }
}

/// What an accepted pong did.
#[derive(Clone, Debug, PartialEq, Eq)]
pub enum PongOutcome {
    /// Was seated, is now at the tail.
    Tail,
    /// Took a free seat.
    Seat,
    /// Stays in line since its range has two seats; no head is named.
    RangeFull,
    /// Stays in line since no seat is free; the head seat and its ping state.
    Wait { head: Node, ping: PingState },
}
