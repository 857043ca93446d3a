//! The table: buckets, the four calls, the counters. Number 1 can't occur here but for a bucket count,
//! since a table of structs has one form only.

use crate::bucket::{Bucket, Entry, PingState, PongOutcome, ENTRIES, PING_TIMEOUT, REPLACEMENTS};
use crate::keccak::keccak256;
use crate::packet::{self, Endpoint, Node, Packet};
use crate::Number;

/// What an accepted datagram asks of the host or did to the table.
#[derive(Clone, Debug, PartialEq, Eq)]
pub enum Outcome {
    /// Type 1: a pong is due, and also a ping if so said.
    Ping {
        ping_due: bool,
    },
    Pong(PongOutcome),
    /// Types 3 to 6: "FindNode's holds nothing of the table".
    Other,
}

/// The answer to an accepted datagram: "An accepted datagram's answer also carries its fields."
#[derive(Clone, Debug, PartialEq, Eq)]
pub struct Accepted {
    pub packet: Packet,
    pub outcome: Outcome,
}

/// What an accepted closest call tells: the records written, and "the number of distances worked out" (C-18).
#[derive(Clone, Copy, Debug, PartialEq, Eq)]
pub struct Listed {
    pub count: usize,
    pub distances: usize,
}

/// Document 01's tally: "one count for each number", 0 to 21 (T11), "or 4,294,967,295 if more".
#[derive(Clone, Debug, Default, PartialEq, Eq)]
pub struct Counters(pub [u32; 22]);

impl Counters {
    pub fn raise(&mut self, number: Number) {
        let count = &mut self.0[usize::from(number)];
        *count = count.saturating_add(1);
    }
}

#[derive(Clone, Debug, PartialEq, Eq)]
pub struct Table {
    /// Keccak-256 of the own key.
    pub own: [u8; 32],
    /// Time of the last accepted call.
    pub clock: u64,
    /// Bucket number 256 - B first, 255 last.
    pub buckets: Vec<Bucket>,
}

/// "Distance is the XOR of the two keys' Keccak-256 hashes, as a big-endian number."
pub fn distance(one: &[u8; 32], other: &[u8; 32]) -> [u8; 32] {
    std::array::from_fn(|i| one[i] ^ other[i])
}

/// The logarithmic distance by C-14: the length of the distance in bits, 0 for equal hashes.
pub fn log_distance(distance: &[u8; 32]) -> u32 {
    let (high, low) = distance.split_at(16);
    let [high, low] = [high, low].map(|half| u128::from_be_bytes(half.try_into().unwrap()));
    if high == 0 {
        128 - low.leading_zeros()
    } else {
        256 - high.leading_zeros()
    }
}

/// "Bucket i has 2^i <= distance < 2^(i+1)."; None for distance 0.
pub fn bucket_number(distance: &[u8; 32]) -> Option<usize> {
    let byte = distance.iter().position(|byte| *byte != 0)?;
    Some(8 * (31 - byte) + distance[byte].ilog2() as usize)
}

impl Table {
    /// "Fresh: clock 0, nothing held; the call that makes it gives only 1 (length or B) and 5."
    pub fn init(buckets: u64, own_key: &[u8]) -> Result<Table, Number> {
        if !(1..=256).contains(&buckets) {
            return Err(1);
        }
        if own_key.len() != 64 {
            return Err(5);
        }
        let buckets = vec![Bucket::default(); buckets as usize];
        Ok(Table { own: keccak256(own_key), clock: 0, buckets })
    }

    /// "A table of B buckets keeps numbers 256-B to 255"; the number of the first kept one.
    pub fn lowest(&self) -> usize {
        256 - self.buckets.len()
    }

    /// Where in `buckets` the nodes with this hash belong; None if their bucket isn't kept.
    pub fn index(&self, id: &[u8; 32]) -> Option<usize> {
        bucket_number(&distance(&self.own, id))?.checked_sub(self.lowest())
    }

    /// The held entry with this key.
    pub fn held(&self, key: &[u8]) -> Option<&Entry> {
        self.buckets[self.index(&keccak256(key))?].held(key)
    }

    /// Whether the node with this key is seated.
    pub fn is_seated(&self, key: &[u8]) -> bool {
        let index = self.index(&keccak256(key));
        index.is_some_and(|index| self.buckets[index].entries.iter().any(|entry| entry.key == key))
    }

    // -------------------------------------------------------------------------------- the four calls

    /// A datagram from `address` and `port`, signed by `signer` ("an empty key if the signature
    /// recovers none"), at box millisecond `now` and Unix second `unix`.
    #[allow(clippy::too_many_arguments)]
    pub fn datagram(
        &mut self,
        counters: &mut Counters,
        now: u64,
        unix: u64,
        address: &[u8],
        port: u16,
        signer: &[u8],
        datagram: &[u8],
    ) -> Result<Accepted, Number> {
        let answer = self.datagram_answer(now, unix, address, port, signer, datagram);
        counters.raise(number(&answer));
        answer
    }

    /// The tests in the order of the numbers, so that "lowest that applies is given".
    fn datagram_answer(
        &mut self,
        now: u64,
        unix: u64,
        address: &[u8],
        port: u16,
        signer: &[u8],
        datagram: &[u8],
    ) -> Result<Accepted, Number> {
        self.check_clock(now)?; // 2
        packet::check_length(datagram)?; // 3
        packet::check_hash(datagram)?; // 4
        let key = check_key(signer)?; // 5
        check_address(address)?; // 6
        let id = self.check_not_own(&key)?; // 7
        let packet = packet::read(datagram)?; // 8, 9, 10
                                              // 11: "expiration below the Unix time handed in"
        if packet.expiration().is_some_and(|expiration| expiration < unix) {
            return Err(11);
        }
        let index = self.index(&id).ok_or(12)?; // 12: "bucket not kept"
        let bucket = &mut self.buckets[index];
        let position = bucket.find(&key);
        let entry = position.map(|position| bucket.get(position));
        let verified = entry.is_some_and(|entry| entry.is_verified(now, address, port));

        let outcome = match &packet {
            Packet::Pong { ping_hash, .. } => {
                // 14: "awaited if the signer is held, a ping is out, and hash, address and UDP port
                // agree"
                let (Some(position), Some(entry)) = (position, entry) else { return Err(14) };
                let PingState::Out(since) = entry.ping else { return Err(14) };
                if entry.ping_hash[..] != ping_hash[..] || !entry.is_at(address, port) {
                    return Err(14);
                }
                // 15: "in time up to and including 500 ms"
                if now - since > PING_TIMEOUT {
                    return Err(15);
                }
                Outcome::Pong(bucket.pong(position, now))
            }
            Packet::Ping { .. } => {
                // "also 'ping due' if the sender isn't held, or is held at this endpoint, not
                // verified, with no ping out"
                let ping_due = match entry {
                    None => true,
                    Some(entry) => entry.is_at(address, port) && !verified && entry.ping == PingState::Quiet,
                };
                if let (Some(position), true) = (position, verified) {
                    bucket.heard(position, now);
                }
                Outcome::Ping { ping_due }
            }
            _ => {
                // 13: "sender not verified (types 3 to 6)"
                match position {
                    Some(position) if verified => bucket.heard(position, now),
                    _ => return Err(13),
                }
                Outcome::Other
            }
        };
        self.clock = now;
        Ok(Accepted { packet, outcome })
    }

    /// "Ping sent (key, endpoint, hash)": the host sent a ping with this hash.
    pub fn ping_sent(
        &mut self,
        counters: &mut Counters,
        now: u64,
        key: &[u8],
        endpoint: &Endpoint,
        hash: &[u8],
    ) -> Result<(), Number> {
        let answer = self.ping_sent_answer(now, key, endpoint, hash);
        counters.raise(number(&answer));
        answer
    }

    fn ping_sent_answer(
        &mut self,
        now: u64,
        key: &[u8],
        endpoint: &Endpoint,
        hash: &[u8],
    ) -> Result<(), Number> {
        self.check_clock(now)?; // 2
        let ping_hash: [u8; 32] = hash.try_into().map_err(|_| 4)?; // 4: "a handed hash isn't 32 bytes"
        let key = check_key(key)?; // 5
        check_address(&endpoint.address)?; // 6
        let id = self.check_not_own(&key)?; // 7
        let index = self.index(&id).ok_or(12)?; // 12
        let bucket = &mut self.buckets[index];
        match bucket.find(&key) {
            Some(position) => {
                let entry = bucket.get_mut(position);
                // 16: "node held at another address or UDP port"
                if !entry.is_at(&endpoint.address, endpoint.udp) {
                    return Err(16);
                }
                // 17: "a ping is already out to it", overdue or not (T7)
                if entry.ping != PingState::Quiet {
                    return Err(17);
                }
                // "a held node at that endpoint gets its ping state, out since now, and this hash;
                // its TCP port stays"
                entry.ping = PingState::Out(now);
                entry.ping_hash = ping_hash;
            }
            None => {
                // 18: "new node, and four waiting places taken"
                if bucket.replacements.len() >= REPLACEMENTS {
                    return Err(18);
                }
                // "A new node joins the end of its bucket's waiting line with both, unproved, last
                // seen 0."
                bucket.replacements.push_back(Entry {
                    key,
                    id,
                    endpoint: endpoint.clone(),
                    last_seen: 0,
                    proof: None,
                    ping: PingState::Out(now),
                    ping_hash,
                });
            }
        }
        self.clock = now;
        Ok(())
    }

    /// "Sweep, in each bucket".
    pub fn sweep(&mut self, counters: &mut Counters, now: u64) -> Result<(), Number> {
        let answer = self.check_clock(now); // 2
        if answer.is_ok() {
            for bucket in &mut self.buckets {
                bucket.sweep(now);
            }
            self.clock = now;
        }
        counters.raise(number(&answer));
        answer
    }

    /// "a list of sixteen node records that the caller lends (fewer is 19) receives the min(16,
    /// seated) seated nodes nearest to the target, nearest first; equal distances by seat, head
    /// first. Records after the count are untouched." Not counted. The list is a plain sort of all that
    /// are seated; what C-18's walk gathers must begin with the same.
    pub fn closest(&self, list: &mut [Node], target: &[u8]) -> Result<Listed, Number> {
        let target = keccak256(&check_key(target)?); // 5
        if list.len() < ENTRIES {
            return Err(19);
        }
        let mut seated: Vec<&Entry> = self.buckets.iter().flat_map(|bucket| &bucket.entries).collect();
        // a stable sort: entries at equal distances stay in the order of their seats
        seated.sort_by_key(|entry| distance(&entry.id, &target));
        seated.truncate(ENTRIES);
        let gathered: Vec<&Entry> = self
            .taken(&target)
            .iter()
            .flat_map(|index| {
                let mut entries: Vec<&Entry> = self.buckets[*index].entries.iter().collect();
                entries.sort_by_key(|entry| distance(&entry.id, &target));
                entries
            })
            .collect();
        assert!(gathered.iter().take(ENTRIES).eq(&seated), "C-18: \"The list must stay what it is today.\"");
        for (record, entry) in list.iter_mut().zip(&seated) {
            *record = entry.node();
        }
        Ok(Listed { count: seated.len(), distances: gathered.len() })
    }

    /// C-18's walk over the buckets: "those numbered by the set bits of own hash XOR target hash, highest
    /// first, then by its clear bits, lowest first; stop after the first whole bucket at which 16 or more
    /// nodes are gathered .. Kept buckets only." The indices of those taken.
    pub fn taken(&self, target: &[u8; 32]) -> Vec<usize> {
        let mut bits = distance(&self.own, target);
        let (mut set, mut clear) = (Vec::new(), Vec::new());
        for number in (0..256).rev() {
            if bits[0] >= 128 { &mut set } else { &mut clear }.push(number);
            for i in 0..32 {
                bits[i] = bits[i] << 1 | bits.get(i + 1).map_or(0, |next| next >> 7);
            }
        }
        clear.reverse();
        let (mut taken, mut nodes) = (Vec::new(), 0);
        for number in [set, clear].concat() {
            let Some(index) = (number + self.buckets.len()).checked_sub(256) else { continue };
            nodes += self.buckets[index].entries.len();
            taken.push(index);
            if nodes >= 16 {
                break;
            }
        }
        taken
    }

    // ------------------------------------------------------------------------------------ the tests

    /// 2: "box clock lower than at the last accepted call"
    fn check_clock(&self, now: u64) -> Result<(), Number> {
        if now < self.clock {
            Err(2)
        } else {
            Ok(())
        }
    }

    /// 7: "key's hash equals the own hash"; gives the key's hash.
    fn check_not_own(&self, key: &[u8; 64]) -> Result<[u8; 32], Number> {
        let id = keccak256(key);
        if id == self.own {
            Err(7)
        } else {
            Ok(id)
        }
    }

    /// Document 01's list of what "sound means exactly", but for the layout.
    pub fn is_sound(&self) -> bool {
        let past = |time: u64| time <= self.clock;
        self.buckets.iter().enumerate().all(|(index, bucket)| {
            let held = || bucket.entries.iter().chain(&bucket.replacements);
            bucket.entries.len() <= ENTRIES
                && bucket.replacements.len() <= REPLACEMENTS
                // "keys distinct and in their own bucket"
                && held().enumerate().all(|(i, one)| held().skip(i + 1).all(|two| one.key != two.key))
                && held().all(|entry| self.index(&keccak256(&entry.key)) == Some(index))
                && held().all(|entry| entry.id == keccak256(&entry.key))
                && held().all(|entry| matches!(entry.endpoint.address.len(), 4 | 16))
                // "no time above the table's clock"
                && held().all(|entry| past(entry.last_seen) && entry.proof.is_none_or(past))
                && held().all(|entry| !matches!(entry.ping, PingState::Out(since) if !past(since)))
                // "every seat proved"
                && bucket.entries.iter().all(|entry| entry.proof.is_some())
                // "every unproved waiting node with a ping out"
                && bucket.replacements.iter().all(|entry| {
                    entry.proof.is_some() || entry.ping != PingState::Quiet
                })
                && bucket.keeps_ranges()
        })
    }
}

/// "Accepted means answered 0."
pub fn number<T>(answer: &Result<T, Number>) -> Number {
    match answer {
        Ok(_) => 0,
        Err(number) => *number,
    }
}

/// 5: "key not 64 bytes"
fn check_key(key: &[u8]) -> Result<[u8; 64], Number> {
    key.try_into().map_err(|_| 5)
}

/// 6: "address not 4 or 16 bytes"
fn check_address(address: &[u8]) -> Result<(), Number> {
    if matches!(address.len(), 4 | 16) {
        Ok(())
    } else {
        Err(6)
    }
}
