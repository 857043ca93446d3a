//! Sound tables, also those that no run reaches: "Calls must be right from every sound table" (T4).

use super::calls::Calls;
use super::peers::Peer;
use super::random::Random;
use crate::bucket::{Entry, PingState, ENTRIES, REPLACEMENTS};
use crate::keccak::keccak256;
use crate::table::{bucket_number, distance, Table};

/// A sound table of `buckets` buckets for the own key and nodes of `calls`: any times up to the
/// clock in any order, any places taken that soundness allows.
pub fn sound_table(calls: &mut Calls, buckets: u64) -> Table {
    let Calls { random, peers, .. } = calls;
    let mut table = Table::init(buckets, &peers.own).expect("a bucket count of 1 to 256");
    table.clock = random.any_size();
    for peers in &peers.buckets {
        let id = keccak256(&peers[0].key);
        let number = bucket_number(&distance(&table.own, &id)).expect("a peer isn't the own node");
        let Some(index) = number.checked_sub(table.lowest()) else { continue };
        let taken = match random.below(8) {
            0..4 => ENTRIES,
            4 | 5 => ENTRIES - 1,
            _ => random.below(ENTRIES + 1),
        };
        let waiting = random.below(REPLACEMENTS + 1);
        let clock = table.clock;
        let bucket = &mut table.buckets[index];
        let mut rest = Vec::new();
        for peer in peers {
            if bucket.entries.len() < taken && !bucket.is_range_full(&peer.endpoint.address) {
                bucket.entries.push_back(entry(random, clock, peer, true));
            } else {
                rest.push(peer);
            }
        }
        for _ in 0..waiting.min(rest.len()) {
            let peer = rest.remove(random.below(rest.len().min(8)));
            // a proved node waits only where there is no seat for it
            let proved = !bucket.has_seat_for(&peer.endpoint.address) && random.chance(60);
            bucket.replacements.push_back(entry(random, clock, peer, proved));
        }
    }
    table
}

/// A node at a place; an unproved one has a ping out.
fn entry(random: &mut Random, clock: u64, peer: &Peer, proved: bool) -> Entry {
    let out = !proved || random.chance(40);
    Entry {
        key: peer.key,
        id: keccak256(&peer.key),
        endpoint: peer.endpoint.clone(),
        last_seen: time(random, clock),
        proof: proved.then(|| time(random, clock)),
        ping: if out { PingState::Out(time(random, clock)) } else { PingState::Quiet },
        ping_hash: random.array(),
    }
}

/// A time up to the clock, often one at an edge.
fn time(random: &mut Random, clock: u64) -> u64 {
    let age = *random.pick(&[0, 1, 499, 500, 501, 43_199_999, 43_200_000, 43_200_001]);
    match random.below(4) {
        0 => random.number() % clock.saturating_add(1).max(1),
        1 => 0,
        _ => clock.saturating_sub(age),
    }
}
