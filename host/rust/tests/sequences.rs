//! Generated sequences of calls, here and in the reference: the same answers, values, fields, lists, counters
//! and table bytes after every call. COGHAMMER_CALLS says how many calls (20,000), COGHAMMER_SEED from which
//! seed.

mod common;

use std::collections::BTreeMap;

use coghammer::{
    Accepted, Counters, Held, MonotonicMillis, Node, Number, Packet, Rank, Standing, State, Table,
    UnixSeconds,
};
use common::{accepted, compare_reading, counted, fields, head, head_of, listed, node, told};
use reference::bucket::{Bucket, PongOutcome, Position};
use reference::calls::{Call, Reply};
use reference::generator::calls::Calls;
use reference::generator::random::Random;
use reference::generator::tables::sound_table;
use reference::keccak::keccak256;
use reference::layout::table_bytes;
use reference::log;
use reference::table::{self, distance, log_distance, Outcome};

/// The two tables with their counters.
struct Pair {
    ours: Table,
    counters: Counters,
    theirs: table::Table,
    their_counters: table::Counters,
    reached: BTreeMap<String, usize>,
}

impl Pair {
    /// Both fresh.
    fn fresh(own: &[u8], buckets: u64) -> Pair {
        let ours = Table::new(own, buckets as usize).expect("a fresh table");
        let theirs = table::Table::init(buckets, own).expect("a fresh table");
        assert_eq!(ours.bytes(), table_bytes(&theirs), "fresh table of {buckets}");
        Pair {
            ours,
            counters: Counters::default(),
            theirs,
            their_counters: table::Counters::default(),
            reached: BTreeMap::new(),
        }
    }

    fn set(&mut self, table: table::Table) {
        self.ours = Table::from_bytes(table_bytes(&table));
        self.theirs = table;
    }

    fn reach(&mut self, what: String) {
        *self.reached.entry(what).or_default() += 1;
    }

    fn call(&mut self, call: &Call) {
        let reply = call.run(&mut self.theirs, &mut self.their_counters);
        let name = match call {
            Call::Datagram { signer, datagram, .. } => {
                self.datagram(call, &reply);
                compare_reading(datagram);
                self.of_key(signer);
                "datagram"
            }
            Call::PingSent { now, key, endpoint, hash } => {
                let now = MonotonicMillis(*now);
                let (udp, tcp) = (endpoint.udp, endpoint.tcp);
                let ours =
                    self.ours.ping_sent(&mut self.counters, now, key, &endpoint.address, udp, tcp, hash);
                assert_eq!(Reply::PingSent(told(ours)), reply, "{call:?}");
                self.of_key(key);
                "ping sent"
            }
            Call::Sweep { now } => {
                let ours = self.ours.sweep(&mut self.counters, MonotonicMillis(*now));
                assert_eq!(Reply::Sweep(told(ours)), reply, "{call:?}");
                "sweep"
            }
            Call::Closest { target, room } => {
                self.closest(target, *room, &reply);
                "closest"
            }
        };
        self.reach(format!("{name} {}", reply.number()));
        assert_eq!(self.counters.counts, self.their_counters.0, "counters after {call:?}");
        assert!(self.ours.bytes() == table_bytes(&self.theirs), "table bytes after {call:?}");
    }

    fn datagram(&mut self, call: &Call, reply: &Reply) {
        let Call::Datagram { now, unix, address, port, signer, datagram } = call else { unreachable!() };
        let Reply::Datagram(reply) = reply else { unreachable!() };
        let (now, unix) = (MonotonicMillis(*now), UnixSeconds(*unix));
        let ours = told(self.ours.datagram(&mut self.counters, now, unix, address, *port, signer, datagram));
        assert_eq!(ours, reply.as_ref().map(accepted).map_err(|number| *number), "{call:?}");
        let Ok(reply) = reply else { return };
        self.reach(format!("datagram, {:?}", ours.unwrap()));
        let packet = Packet::read(datagram).expect("an accepted datagram has fields");
        assert_eq!(fields(&packet), reply.packet, "fields of {call:?}");
        if let Outcome::Pong(PongOutcome::Wait { head: first, ping }) = &reply.outcome {
            let first = head(node(first), *ping);
            assert_eq!(self.ours.head(signer), Ok(Some(first)), "head after {call:?}");
        }
    }

    fn closest(&mut self, target: &[u8], room: usize, reply: &Reply) {
        let Reply::Closest(reply) = reply else { unreachable!() };
        let untouched = Node { key: [0xee; 64], ..Node::EMPTY };
        let mut list = vec![untouched; room];
        let ours = told(self.ours.closest_in(&mut list, target));
        let mut wanted: Vec<Node> = reply.iter().flat_map(|(nodes, _)| nodes).map(node).collect();
        assert_eq!(ours, reply.as_ref().map(listed).map_err(|number| *number));
        wanted.resize(room, untouched);
        assert_eq!(list, wanted, "closest to {}", reference::hex(target));
        if room == 16 {
            let found = self.ours.closest(target).map(|list| list.len());
            assert_eq!(told(found), ours.map(|listed| listed.count), "closest in a Vec");
        }
    }

    /// The head of a key's bucket and where its node is held, for any key.
    fn of_key(&mut self, key: &[u8]) {
        let (head, found) = (told(self.ours.head(key)), told(self.ours.find(key)));
        self.reach(format!("head {}", table::number(&head)));
        self.reach(match &found {
            Ok(held) => format!("find, {:?}", held.map(|held| held.rank)),
            Err(number) => format!("find {number}"),
        });
        let bucket = bucket_of(&self.theirs, key);
        let name = reference::hex(key);
        assert_eq!(head, bucket.map(|(bucket, _)| bucket.entries.front().map(head_of)), "head by {name}");
        assert_eq!(found, bucket.map(|(bucket, distance)| held_in(bucket, distance, key)), "find {name}");
    }

    /// The state and the printout; in a room that is one byte short, nothing.
    fn tells(&mut self) {
        let held = |count: fn(&Bucket) -> usize| self.theirs.buckets.iter().map(count).sum();
        let state = State {
            clock: MonotonicMillis(self.theirs.clock),
            buckets: self.theirs.buckets.len(),
            entries: held(|bucket| bucket.entries.len()),
            replacements: held(|bucket| bucket.replacements.len()),
        };
        assert_eq!(self.ours.state(), Ok(state));
        assert_eq!(self.ours.printout().as_ref(), Ok(&log::printout(&self.theirs)));
        let mut short = vec![0xaa; Table::printout_size(state.buckets) - 1];
        assert_eq!(self.ours.printout_in(&mut short), Err(Number(19)));
        assert!(short.iter().all(|byte| *byte == 0xaa));
        self.reach("printout".to_string());
    }
}

/// A key's bucket, and its logarithmic distance.
fn bucket_of<'a>(table: &'a table::Table, key: &[u8]) -> Result<(&'a Bucket, usize), u8> {
    if key.len() != 64 {
        return Err(5);
    }
    let id = keccak256(key);
    if id == table.own {
        return Err(7);
    }
    let bucket = &table.buckets[table.index(&id).ok_or(12)?];
    Ok((bucket, log_distance(&distance(&table.own, &id)) as usize))
}

fn held_in(bucket: &Bucket, distance: usize, key: &[u8]) -> Option<Held> {
    let position = bucket.find(key)?;
    let (rank, index) = match position {
        Position::Entry(index) => (Rank::Entry, index),
        Position::Replacement(index) => (Rank::Replacement, index),
    };
    Some(Held { node: node(&bucket.get(position).node()), rank, distance, place: index + 1 })
}

/// Every answer of every call that a sound table can give.
const WANTED: [(&str, &[u8]); 6] = [
    ("datagram", &[0, 2, 3, 4, 5, 6, 7, 8, 9, 10, 11, 12, 13, 14, 15]),
    ("ping sent", &[0, 2, 4, 5, 6, 7, 12, 16, 17, 18]),
    ("sweep", &[0, 2]),
    ("closest", &[0, 5, 19]),
    ("head", &[0, 5, 7, 12]),
    ("find", &[5, 7, 12]),
];

#[test]
fn sequences() {
    let total = common::calls(20_000);
    let mut random = Random::new(common::seed());
    let mut reached = BTreeMap::new();
    let (mut made, mut tables) = (0, 0);
    while made < total {
        let buckets = *random.pick(&[1, 1, 2, 2, 3, 3, 3, 4, 16, 16, 16, 16, 17, 256]);
        let most = if buckets == 256 { 100 } else { 600 };
        let length = (random.between(20, most) as usize).min(total - made);
        let keys = *random.pick(&[32, 64, 128, 512, 1024]);
        let mut calls = Calls::new(random.number(), keys, true);
        let mut pair = Pair::fresh(&calls.peers.own, buckets);
        if random.chance(50) {
            let table = sound_table(&mut calls, buckets);
            pair.set(table);
        }
        for _ in 0..length {
            let call = calls.next(Some(&pair.theirs));
            pair.call(&call);
            if random.chance(5) {
                pair.tells();
            }
        }
        pair.tells();
        if random.chance(30) {
            pair.counters.clear();
            assert_eq!(pair.counters, Counters::default());
        }
        for (what, count) in pair.reached {
            *reached.entry(what).or_default() += count;
        }
        made += length;
        tables += 1;
    }
    for (what, count) in &reached {
        let _: &usize = count;
        println!("{count:>9}  {what}");
    }
    let wanted = WANTED.iter().flat_map(|(name, numbers)| numbers.iter().map(move |n| format!("{name} {n}")));
    let ranks = [None, Some(Rank::Entry), Some(Rank::Replacement)].map(|rank| format!("find, {rank:?}"));
    let standings = [Standing::Tail, Standing::TookEntry, Standing::Waiting, Standing::RangeFull]
        .map(|standing| format!("datagram, {:?}", Accepted::Pong(standing)));
    let wanted = wanted.chain(ranks).chain(standings);
    let missing: Vec<String> = wanted.filter(|what| !reached.contains_key(what)).collect();
    assert!(missing.is_empty() || total < 20_000, "never reached: {}", missing.join("; "));
    counted(made, "calls on sound tables agree in answer, fields, counters and every table byte");
    counted(reached["printout"], "states and printouts agree");
    counted(tables, "tables");
}

/// A count stays at 4,294,967,295.
#[test]
fn full_counters() {
    let mut table = Table::new(&[1; 64], 1).unwrap();
    let mut counters = Counters { counts: [u32::MAX - 1; 22] };
    for _ in 0..3 {
        table.sweep(&mut counters, MonotonicMillis(7)).unwrap();
        assert_eq!(table.sweep(&mut counters, MonotonicMillis(6)), Err(Number(2)));
    }
    let mut wanted = [u32::MAX - 1; 22];
    (wanted[0], wanted[2]) = (u32::MAX, u32::MAX);
    assert_eq!(counters.counts, wanted);
}
