//! Calls that follow the state of a table: who is held, since when a ping is out, how old a proof is.

use super::datagrams;
use super::peers::{elsewhere, random_endpoint, random_port, Peer, Peers};
use super::random::Random;
use crate::bucket::{range, Bucket, Entry, PingState, ENTRIES, PING_TIMEOUT, PROOF_LIFETIME};
use crate::calls::Call;
use crate::packet::Endpoint;
use crate::table::Table;

/// What a stretch of calls is about.
#[derive(Clone, Copy, PartialEq, Eq)]
enum Phase {
    /// New nodes are pinged and answer.
    Fill,
    /// Held nodes send packets.
    Chatter,
    /// Pings go unanswered and are swept.
    Silence,
    /// Times at the edges of 500 ms and 43,200,000 ms.
    Edges,
    /// Faults of every kind.
    Faults,
}

const PHASES: [Phase; 5] = [Phase::Fill, Phase::Chatter, Phase::Silence, Phase::Edges, Phase::Faults];

#[derive(Clone, Copy)]
enum Action {
    PingNew,
    PingHeld,
    PingFull,
    PingRange,
    PingElsewhere,
    PingFaulty,
    Pong,
    PongUnawaited,
    PacketHeld,
    PacketElsewhere,
    PacketUnknown,
    Replayed,
    DamagedPacket,
    OddDatagram,
    Sweep,
    Closest,
}

/// How often each action is taken, by phase.
#[rustfmt::skip]
const WEIGHTS: [(Action, [usize; 5]); 16] = [
    //                        Fill Chatter Silence Edges Faults
    (Action::PingNew,         [40,  5, 15, 15,  5]),
    (Action::PingHeld,        [ 5,  5, 30, 20,  5]),
    (Action::PingFull,        [ 4,  1, 15,  4,  1]),
    (Action::PingRange,       [ 3,  1, 20,  4,  1]),
    (Action::PingElsewhere,   [ 2,  1,  4,  2,  5]),
    (Action::PingFaulty,      [ 1,  1,  1,  1, 12]),
    (Action::Pong,            [40, 10, 10, 25, 10]),
    (Action::PongUnawaited,   [ 2,  3,  3,  2,  5]),
    (Action::PacketHeld,      [ 6, 50, 10, 15, 10]),
    (Action::PacketElsewhere, [ 1,  5,  2,  2,  5]),
    (Action::PacketUnknown,   [ 3, 10,  3,  3,  5]),
    (Action::Replayed,        [ 1,  5,  2,  2,  5]),
    (Action::DamagedPacket,   [ 1,  3,  1,  1, 40]),
    (Action::OddDatagram,     [ 1,  3,  1,  1, 20]),
    (Action::Sweep,           [ 2,  2, 12, 12,  2]),
    (Action::Closest,         [10, 10, 10, 10, 10]),
];

/// A proved node of the seat's range waits in its bucket.
fn is_waited_for(bucket: &Bucket, seat: &Entry) -> bool {
    let wanted = range(&seat.endpoint.address);
    let same = |entry: &Entry| entry.proof.is_some() && range(&entry.endpoint.address) == wanted;
    wanted.is_some() && bucket.replacements.iter().any(same)
}

/// A source of calls.
pub struct Calls {
    pub random: Random,
    pub peers: Peers,
    /// Whether closest calls are among them.
    closest: bool,
    phase: Phase,
    phase_left: usize,
    /// The index in `peers.buckets` that most of the phase's nodes come from.
    focus: usize,
    /// Unix time, which "may jump either way".
    unix: u64,
    /// Where box time starts: the first calls don't leave it at once.
    start: u64,
    start_left: usize,
    /// The time of a sweep that is to come next.
    planned_sweep: Option<u64>,
    /// Datagrams to be sent again, with their signers and where they came from.
    kept: Vec<(Vec<u8>, Vec<u8>, Endpoint)>,
}

impl Calls {
    /// Peers are drawn from `keys` random keys. Some seeds start at millisecond 0 and stay there for
    /// a while, some near the end of the 64-bit clock.
    pub fn new(seed: u64, keys: usize, closest: bool) -> Calls {
        let mut random = Random::new(seed);
        let peers = Peers::new(&mut random, keys);
        let start = match random.below(8) {
            0 => u64::MAX - random.between(0, 3 * PROOF_LIFETIME),
            1 => random.any_size(),
            2..=4 => random.between(0, 1_000_000),
            _ => 0,
        };
        let start_left = random.below(80);
        let unix = random.between(1, 2_000_000_000);
        let phase = Phase::Fill;
        let planned_sweep = None;
        let kept = Vec::new();
        Calls {
            random,
            peers,
            closest,
            phase,
            phase_left: 60,
            focus: 0,
            unix,
            start,
            start_left,
            planned_sweep,
            kept,
        }
    }

    /// The next call for a table (or for none yet).
    pub fn next(&mut self, table: Option<&Table>) -> Call {
        self.step_phase();
        self.start_left = self.start_left.saturating_sub(1);
        if self.random.chance(10) {
            let far = self.random.between(0, 4_000_000_000);
            let near = self.unix.saturating_add(self.random.between(0, 6)).saturating_sub(3);
            self.unix = if self.random.chance(10) { far } else { near };
        }
        if let Some(planned) = self.planned_sweep.take() {
            return Call::Sweep { now: self.moment(table, Some(planned)) };
        }
        let phase = PHASES.iter().position(|phase| *phase == self.phase).unwrap();
        let mut weights = WEIGHTS.map(|(_, weights)| weights[phase]);
        if !self.closest {
            weights[Action::Closest as usize] = 0;
        }
        let (action, _) = WEIGHTS[self.random.weighted(&weights)];
        let call = self.act(action, table);
        if let Call::Datagram { datagram, signer, address, port, .. } = &call {
            let endpoint = Endpoint { address: address.clone(), udp: *port, tcp: 0 };
            let kept = (datagram.clone(), signer.clone(), endpoint);
            match self.kept.len() {
                0..=63 => self.kept.push(kept),
                _ => self.kept[self.random.below(64)] = kept,
            }
        }
        call
    }

    /// A packet of a node that isn't held.
    pub fn from_a_stranger(&mut self) -> Call {
        self.act(Action::PacketUnknown, None)
    }

    fn step_phase(&mut self) {
        if self.phase_left == 0 {
            self.phase = PHASES[self.random.weighted(&[30, 20, 15, 20, 15])];
            self.phase_left = self.random.between(10, 150) as usize;
            // far buckets are full of peers, near ones have few
            let reach = self.random.below(self.peers.buckets.len()) + 1;
            self.focus = self.random.below(reach.min(self.peers.buckets.len()));
        }
        self.phase_left -= 1;
    }

    fn act(&mut self, action: Action, table: Option<&Table>) -> Call {
        match action {
            Action::PingNew => {
                let (key, mut endpoint) = self.peer(table, false);
                if self.random.chance(5) {
                    endpoint = random_endpoint(&mut self.random);
                }
                let now = self.moment(table, None);
                self.ping(now, key, endpoint)
            }
            Action::PingHeld => match self.held(table, |_, _| true) {
                Some((entry, waiting)) => {
                    // a ping to a node whose proof is about to be too old, then a sweep
                    let edge = entry.proof.and_then(|proof| proof.checked_add(PROOF_LIFETIME));
                    let often = if waiting { 40 } else { 5 };
                    let aged = match edge {
                        Some(edge) if self.phase == Phase::Edges && self.random.chance(often) => {
                            self.planned_sweep = Some(edge.saturating_add(self.random.between(0, 1)));
                            Some(edge - self.random.between(0, PING_TIMEOUT))
                        }
                        _ => None,
                    };
                    let mut endpoint = entry.endpoint.clone();
                    if self.random.chance(20) {
                        endpoint.tcp = random_port(&mut self.random);
                    }
                    let key = entry.key.to_vec();
                    let now = self.moment(table, aged);
                    self.ping(now, key, endpoint)
                }
                None => self.act(Action::PingNew, table),
            },
            Action::PingFull => {
                // the head of a full bucket, as a host does that was told to wait behind it, or any seat,
                // so that a sweep frees several
                let full: Vec<&Bucket> = table
                    .iter()
                    .flat_map(|table| &table.buckets)
                    .filter(|bucket| bucket.entries.len() == ENTRIES)
                    .collect();
                if full.is_empty() {
                    return self.act(Action::PingNew, table);
                }
                let bucket = *self.random.pick(&full);
                let seat = if self.random.chance(50) { 0 } else { self.random.below(ENTRIES) };
                let entry = &bucket.entries[seat];
                let now = self.moment(table, None);
                if self.random.chance(20) {
                    self.planned_sweep = now.checked_add(PING_TIMEOUT + 1);
                }
                self.ping(now, entry.key.to_vec(), entry.endpoint.clone())
            }
            Action::PingRange => {
                // a seat of a range that a proved node waits for, often left to a sweep
                let seats: Vec<&Entry> = table
                    .iter()
                    .flat_map(|table| &table.buckets)
                    .flat_map(|bucket| bucket.entries.iter().filter(|seat| is_waited_for(bucket, seat)))
                    .collect();
                if seats.is_empty() {
                    return self.act(Action::PingFull, table);
                }
                let entry = *self.random.pick(&seats);
                let now = self.moment(table, None);
                if self.random.chance(50) {
                    self.planned_sweep = now.checked_add(PING_TIMEOUT + 1);
                }
                self.ping(now, entry.key.to_vec(), entry.endpoint.clone())
            }
            Action::PingElsewhere => match self.held(table, |_, _| true) {
                Some((entry, _)) => {
                    let endpoint = elsewhere(&mut self.random, &entry.endpoint);
                    let now = self.moment(table, None);
                    self.ping(now, entry.key.to_vec(), endpoint)
                }
                None => self.act(Action::PingNew, table),
            },
            Action::PingFaulty => self.faulty_ping(table),
            Action::Pong => match self.held(table, |entry, _| entry.ping != PingState::Quiet) {
                Some((entry, _)) => {
                    let PingState::Out(since) = entry.ping else { unreachable!() };
                    let after = match self.random.below(10) {
                        0..=1 => PING_TIMEOUT,
                        2..=3 if self.phase == Phase::Edges => PING_TIMEOUT + 1,
                        _ => self.random.between(0, PING_TIMEOUT),
                    };
                    let wanted = since.checked_add(after).filter(|_| self.random.chance(60));
                    let hash = entry.ping_hash;
                    self.packet(table, wanted, 2, entry.key.to_vec(), &entry.endpoint, &hash)
                }
                None => self.act(Action::PingNew, table),
            },
            Action::PongUnawaited => match self.held(table, |_, _| true) {
                // quiet, elsewhere, or with another hash
                Some((entry, _)) => {
                    let mut hash = entry.ping_hash;
                    let mut endpoint = entry.endpoint.clone();
                    if self.random.chance(50) {
                        hash[self.random.below(32)] ^= 1 << self.random.below(8);
                    }
                    if self.random.chance(50) {
                        endpoint = elsewhere(&mut self.random, &endpoint);
                    }
                    self.packet(table, None, 2, entry.key.to_vec(), &endpoint, &hash)
                }
                None => {
                    let (key, endpoint) = self.peer(table, false);
                    let hash = self.random.array();
                    self.packet(table, None, 2, key, &endpoint, &hash)
                }
            },
            Action::PacketHeld => match self.held(table, |_, _| true) {
                Some((entry, _)) => {
                    let edge = match entry.proof {
                        Some(proof) if self.phase == Phase::Edges && self.random.chance(10) => {
                            proof.checked_add(PROOF_LIFETIME + self.random.between(0, 1))
                        }
                        _ => None,
                    };
                    let number = *self.random.pick(&[1, 3, 4, 5, 6]);
                    let hash = entry.ping_hash;
                    self.packet(table, edge, number, entry.key.to_vec(), &entry.endpoint, &hash)
                }
                None => self.act(Action::PacketUnknown, table),
            },
            Action::PacketElsewhere => match self.held(table, |_, _| true) {
                Some((entry, _)) => {
                    let endpoint = elsewhere(&mut self.random, &entry.endpoint);
                    let number = *self.random.pick(&[1, 1, 3, 4, 5, 6]);
                    let hash = entry.ping_hash;
                    self.packet(table, None, number, entry.key.to_vec(), &endpoint, &hash)
                }
                None => self.act(Action::PacketUnknown, table),
            },
            Action::PacketUnknown => {
                let (key, endpoint) = self.peer(table, true);
                let number = *self.random.pick(&[1, 1, 2, 3, 4, 5, 6]);
                let hash = self.random.array();
                self.packet(table, None, number, key, &endpoint, &hash)
            }
            Action::Replayed => {
                if self.kept.is_empty() {
                    return self.act(Action::PacketUnknown, table);
                }
                let (datagram, mut signer, mut from) = self.random.pick(&self.kept).clone();
                if self.random.chance(70) && !from.address.is_empty() {
                    from = elsewhere(&mut self.random, &from);
                }
                if self.random.chance(10) {
                    signer = self.peer(table, true).0;
                }
                let now = self.moment(table, None);
                let (unix, address, port) = (self.unix, from.address, from.udp);
                Call::Datagram { now, unix, address, port, signer, datagram }
            }
            Action::DamagedPacket | Action::OddDatagram => self.faulty_datagram(action, table),
            Action::Sweep => {
                let edge = match self.held(table, |_, _| true) {
                    Some((Entry { ping: PingState::Out(since), .. }, _)) if self.random.chance(70) => {
                        since.checked_add(PING_TIMEOUT + self.random.between(0, 1))
                    }
                    Some((Entry { proof: Some(proof), .. }, waiting))
                        if self.phase == Phase::Edges
                            && (waiting && self.random.chance(60) || self.random.chance(5)) =>
                    {
                        proof.checked_add(PROOF_LIFETIME + self.random.between(0, 1))
                    }
                    _ => None,
                };
                Call::Sweep { now: self.moment(table, edge) }
            }
            Action::Closest => {
                let target = match self.random.below(6) {
                    0 => self.peers.own.to_vec(),
                    1 => self.random.bytes(64),
                    2 => self.faulty_key(),
                    _ => self.peer(table, true).0,
                };
                let room = *self.random.pick(&[16, 16, 16, 17, 20, 15, 0]);
                Call::Closest { target, room }
            }
        }
    }

    // ------------------------------------------------------------------------------------- choosing

    /// Box time for a call: the wanted one if it isn't past, else a small step from the table's
    /// clock, at times one backwards.
    fn moment(&mut self, table: Option<&Table>, wanted: Option<u64>) -> u64 {
        let clock = table.map_or(0, |table| table.clock);
        let base = clock.max(self.start);
        if clock > 0 && self.random.chance(2) {
            return match self.random.below(3) {
                0 => clock - 1,
                1 => self.random.between(0, clock),
                _ => 0,
            };
        }
        if self.start_left > 0 {
            return base;
        }
        if let Some(wanted) = wanted.filter(|wanted| *wanted >= clock) {
            return wanted;
        }
        let step = match self.random.below(100) {
            0..=39 => 0,
            40..=79 => self.random.between(1, 20),
            80..=95 => self.random.between(1, 150),
            96..=97 => self.random.between(499, 502),
            98 => self.random.between(1, 5000),
            _ if self.phase == Phase::Edges => {
                self.random.between(PROOF_LIFETIME - 1000, PROOF_LIFETIME + 1000)
            }
            _ => 1,
        };
        base.saturating_add(step)
    }

    /// A random held entry that passes the test, and whether it waits. Half the time one that waits,
    /// if there is one.
    fn held<'a>(
        &mut self,
        table: Option<&'a Table>,
        test: impl Fn(&Entry, bool) -> bool,
    ) -> Option<(&'a Entry, bool)> {
        let table = table?;
        let start = self.random.below(table.buckets.len());
        let waiting = self.random.chance(50);
        for lines in [waiting, !waiting] {
            for step in 0..table.buckets.len() {
                // far buckets are full, near ones often empty: begin at either end
                let index = (start + step) % table.buckets.len();
                let bucket = &table.buckets[table.buckets.len() - 1 - index];
                let line = if lines { &bucket.replacements } else { &bucket.entries };
                let fitting: Vec<&Entry> = line.iter().filter(|entry| test(entry, lines)).collect();
                if !fitting.is_empty() {
                    return Some((*self.random.pick(&fitting), lines));
                }
            }
        }
        None
    }

    /// Key and endpoint of a peer, mostly from the bucket in focus; not a held one unless `any`.
    fn peer(&mut self, table: Option<&Table>, any: bool) -> (Vec<u8>, Endpoint) {
        for _ in 0..20 {
            let bucket = match self.random.below(10) {
                0..=6 => self.focus,
                7..=8 => self.random.below(self.peers.buckets.len()),
                _ => self.peers.buckets.len() - 1, // the nearest, often one that isn't kept
            };
            // few peers of each bucket take part, so that they come back
            let reach = self.peers.buckets[bucket].len().min(60);
            let Peer { key, endpoint } = &self.peers.buckets[bucket][self.random.below(reach)];
            if any || table.is_none_or(|table| table.held(key).is_none()) {
                return (key.to_vec(), endpoint.clone());
            }
        }
        (self.random.bytes(64), random_endpoint(&mut self.random))
    }

    // --------------------------------------------------------------------------------------- making

    fn ping(&mut self, now: u64, key: Vec<u8>, endpoint: Endpoint) -> Call {
        let hash = self.random.bytes(32);
        Call::PingSent { now, key, endpoint, hash }
    }

    /// Mostly a good expiration; at the edge often, below it at times.
    fn expiration(&mut self) -> u64 {
        match self.random.below(20) {
            0 => self.unix.saturating_sub(1),
            1 => self.random.any_size(),
            2..=6 => self.unix,
            7 => u64::MAX,
            _ => self.unix.saturating_add(self.random.between(0, 60)),
        }
    }

    /// A good packet.
    fn packet(
        &mut self,
        table: Option<&Table>,
        wanted: Option<u64>,
        number: u8,
        signer: Vec<u8>,
        from: &Endpoint,
        ping_hash: &[u8; 32],
    ) -> Call {
        let expiration = self.expiration();
        let datagram = datagrams::good(&mut self.random, number, expiration, ping_hash);
        let now = self.moment(table, wanted);
        let (address, port) = (from.address.clone(), from.udp);
        Call::Datagram { now, unix: self.unix, address, port, signer, datagram }
    }

    /// A key of a wrong length, the own key, or all zeros.
    fn faulty_key(&mut self) -> Vec<u8> {
        match self.random.below(4) {
            0 => self.peers.own.to_vec(),
            1 => vec![0; 64],
            _ => {
                let length = *self.random.pick(&[1, 32, 63, 65, 128]);
                self.random.bytes(length)
            }
        }
    }

    fn faulty_address(&mut self) -> Vec<u8> {
        let length = *self.random.pick(&[1, 3, 5, 8, 15, 17, 32]);
        self.random.bytes(length)
    }

    /// One to three faults, so that the lowest number must be found.
    fn faulty_ping(&mut self, table: Option<&Table>) -> Call {
        let (mut key, mut endpoint) = match self.held(table, |_, _| true) {
            Some((entry, _)) if self.random.chance(50) => (entry.key.to_vec(), entry.endpoint.clone()),
            _ => self.peer(table, true),
        };
        let mut hash = self.random.bytes(32);
        for _ in 0..self.random.between(1, 3) {
            match self.random.below(4) {
                0 => {
                    let length = *self.random.pick(&[1, 31, 33, 64]);
                    hash = self.random.bytes(length);
                }
                1 => endpoint.address = self.faulty_address(),
                _ => key = self.faulty_key(),
            }
        }
        Call::PingSent { now: self.moment(table, None), key, endpoint, hash }
    }

    /// A damaged packet, or one with faults around it: length, hash, type, signer, address.
    fn faulty_datagram(&mut self, action: Action, table: Option<&Table>) -> Call {
        let (mut signer, from, hash) = match self.held(table, |_, _| true) {
            Some((entry, _)) if self.random.chance(80) => {
                (entry.key.to_vec(), entry.endpoint.clone(), entry.ping_hash)
            }
            _ => {
                let (key, endpoint) = self.peer(table, true);
                (key, endpoint, self.random.array())
            }
        };
        let number = self.random.between(1, 6) as u8;
        let expiration = self.expiration();
        let mut address = from.address.clone();
        let datagram = if matches!(action, Action::DamagedPacket) {
            let data = datagrams::damaged_data(&mut self.random, number, expiration, &hash);
            datagrams::datagram(&mut self.random, number, &data)
        } else {
            if self.random.chance(40) {
                signer = if self.random.chance(40) { Vec::new() } else { self.faulty_key() };
            }
            if self.random.chance(25) {
                address = self.faulty_address();
            }
            datagrams::odd(&mut self.random, number, expiration, &hash)
        };
        let now = self.moment(table, None);
        Call::Datagram { now, unix: self.unix, address, port: from.udp, signer, datagram }
    }
}
