//! Calls on bytes that are no sound table: damaged in each way that docs/LAYOUT.md shuts out, of a wrong
//! length, random. The reference says which answer 1; then no byte changes. COGHAMMER_CALLS says how many
//! calls (5,000).

mod common;

use std::collections::BTreeMap;

use coghammer::{Counters, MonotonicMillis, Node, Number, Table, UnixSeconds};
use common::{accepted, counted, listed, node, told};
use reference::calls::{Call, Reply};
use reference::generator::calls::Calls;
use reference::generator::damage::{damage, Store, KINDS};
use reference::generator::random::Random;
use reference::generator::tables::sound_table;
use reference::layout;
use reference::table;

/// Runs a call on any bytes, here and in the reference, and gives its number.
fn call(memory: &mut Vec<u8>, call: &Call) -> u8 {
    let before = memory.clone();
    let mut ours = Table::from_bytes(std::mem::take(memory));
    let mut counters = Counters::default();
    let (mut theirs, mut their_counters) = (before.clone(), table::Counters::default());
    let reply = layout::run(&mut theirs, &mut their_counters, call);
    match (call, &reply) {
        (Call::Datagram { now, unix, address, port, signer, datagram }, Reply::Datagram(reply)) => {
            let (now, unix) = (MonotonicMillis(*now), UnixSeconds(*unix));
            let answer = ours.datagram(&mut counters, now, unix, address, *port, signer, datagram);
            assert_eq!(told(answer), reply.as_ref().map(accepted).map_err(|number| *number), "{call:?}");
        }
        (Call::PingSent { now, key, endpoint, hash }, _) => {
            let (now, address) = (MonotonicMillis(*now), &endpoint.address);
            let answer = ours.ping_sent(&mut counters, now, key, address, endpoint.udp, endpoint.tcp, hash);
            assert_eq!(Reply::PingSent(told(answer)), reply, "{call:?}");
        }
        (Call::Sweep { now }, _) => {
            let answer = ours.sweep(&mut counters, MonotonicMillis(*now));
            assert_eq!(Reply::Sweep(told(answer)), reply, "{call:?}");
        }
        (Call::Closest { target, room }, Reply::Closest(reply)) => {
            let mut list = vec![Node::EMPTY; *room];
            let answer = ours.closest_in(&mut list, target);
            assert_eq!(told(answer), reply.as_ref().map(listed).map_err(|number| *number));
            let mut wanted: Vec<Node> = reply.iter().flat_map(|(nodes, _)| nodes).map(node).collect();
            wanted.resize(*room, Node::EMPTY);
            assert_eq!(list, wanted, "{call:?}");
        }
        _ => unreachable!("a reply to another call"),
    }
    assert_eq!(counters.counts, their_counters.0, "counters after {call:?}");
    assert!(ours.bytes() == theirs, "bytes after {call:?}");
    if reply.number() != 0 {
        assert!(ours.bytes() == before, "a refusal changed bytes: {call:?}");
    }
    *memory = ours.into_bytes();
    reply.number()
}

/// Where a keyed call answers 1, `head` and `find` do too; where a sweep does, `state` and `printout`; and the other
/// way round.
fn told_agrees(memory: &[u8], call: &Call, number: u8) {
    let table = Table::from_bytes(memory.to_vec());
    let refused = match call {
        Call::PingSent { key, .. } | Call::Datagram { signer: key, .. } => {
            [table.head(key) == Err(Number(1)), table.find(key) == Err(Number(1))]
        }
        _ => [table.state() == Err(Number(1)), table.printout_in(&mut []) == Err(Number(1))],
    };
    assert_eq!(refused, [number == 1; 2], "what is told of the table of {call:?}");
}

#[test]
fn damaged_tables() {
    let total = common::calls(5_000);
    let mut random = Random::new(common::seed());
    let (mut made, mut ones) = (0, BTreeMap::new());
    let mut kinds = KINDS.into_iter().cycle();
    while made < total {
        let buckets = *random.pick(&[1, 2, 3, 16]);
        let mut calls = Calls::new(random.number(), 128, true);
        let table = sound_table(&mut calls, buckets);
        let sound = layout::table_bytes(&table);
        for _ in 0..KINDS.len() {
            let (kind, slot) = (kinds.next().unwrap(), random.below(buckets as usize));
            let Some(Store { at, bytes }) = damage(&mut calls.random, kind, &table, slot) else { continue };
            let mut memory = sound.clone();
            memory[at..at + bytes.len()].copy_from_slice(&bytes);
            let now = table.clock.saturating_sub(calls.random.between(0, 1));
            let bucket = &table.buckets[slot];
            let mut trials = vec![Call::Sweep { now }, Call::Closest { target: vec![7; 64], room: 16 }];
            if let Some(entry) = bucket.entries.iter().chain(&bucket.replacements).next() {
                let (key, endpoint) = (entry.key.to_vec(), entry.endpoint.clone());
                trials.push(Call::PingSent { now, key, endpoint, hash: vec![9; 32] });
            }
            trials.push(calls.next(Some(&table)));
            for trial in trials {
                let before = memory.clone();
                let number = call(&mut memory, &trial);
                told_agrees(&before, &trial, number);
                made += 1;
                *ones.entry(format!("{kind:?}")).or_insert(0) += usize::from(number == 1);
            }
        }
    }
    let silent: Vec<String> = KINDS
        .iter()
        .map(|kind| format!("{kind:?}"))
        .filter(|kind| ones.get(kind).is_none_or(|n| *n == 0))
        .collect();
    assert!(silent.is_empty() || total < 5_000, "never answered 1: {}", silent.join("; "));
    counted(made, "calls on damaged tables agree");
    counted(ones.values().sum(), "of them answer 1 and change nothing");
}

#[test]
fn any_bytes() {
    let total = common::calls(5_000);
    let mut random = Random::new(common::seed());
    let mut ones = 0;
    for made in 0..total {
        let mut calls = Calls::new(random.number(), 16, true);
        let lengths = [0, 1, 41, 42, 511, 512, 513, 3373, 3374, 3375, 6236, 46303, 46304, 46305];
        let length = *random.pick(&lengths);
        let mut memory = match random.below(3) {
            0 => vec![0; length],
            1 => random.bytes(length),
            // a sound header before random bytes
            _ => {
                let mut memory = random.bytes(length);
                if length >= layout::size(1) {
                    let count = (length - 512) / 2862;
                    let table = table::Table::init(count as u64, &calls.peers.own).unwrap();
                    memory[..512].copy_from_slice(&layout::header_bytes(&table));
                }
                memory
            }
        };
        let trial = match made % 3 {
            0 => calls.next(None),
            1 => Call::Sweep { now: random.any_size() },
            _ => Call::Closest { target: random.bytes(64), room: 16 },
        };
        let before = memory.clone();
        let number = call(&mut memory, &trial);
        told_agrees(&before, &trial, number);
        ones += usize::from(number == 1);
    }
    counted(total, "calls on any bytes agree");
    counted(ones, "of them answer 1 and change nothing");
}
