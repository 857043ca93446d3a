//! Properties over generated calls and logs: what document 01 promises of every run, and that the
//! generator reaches every answer and edge.

use reference::calls::{run, Call, Reply};
use reference::generator::calls::Calls;
use reference::generator::coverage::{Coverage, CASES};
use reference::generator::logs::{line, log, Options};
use reference::generator::tables::sound_table;
use reference::keccak::keccak256;
use reference::log::{read, replay, Line, LONGEST_LINE};
use reference::table::{distance, Counters, Table};

/// Runs calls on a table and checks after each: sound stays sound, a refusal changes nothing, the
/// counters count, the clock is the last accepted call's, closest lists are what a search by hand
/// finds.
fn check(calls: &mut Calls, mut table: Table, count: usize) {
    let mut counters = Counters::default();
    let mut counted = [0; 22];
    assert!(table.is_sound());
    for _ in 0..count {
        let call = calls.next(Some(&table));
        let before = table.clone();
        let reply = call.run(&mut table, &mut counters);
        assert!(table.is_sound(), "{call:?}");
        let now = match &call {
            Call::Datagram { now, .. } | Call::PingSent { now, .. } | Call::Sweep { now } => Some(*now),
            Call::Closest { .. } => None,
        };
        match now {
            Some(now) if reply.number() == 0 => assert_eq!(table.clock, now),
            _ => assert_eq!(table, before, "{call:?}"),
        }
        if now.is_some() {
            counted[usize::from(reply.number())] += 1;
        }
        if let (Call::Closest { target, .. }, Reply::Closest(Ok((list, distances)))) = (&call, &reply) {
            check_closest(&table, target, &list.iter().map(|node| &node.key[..]).collect::<Vec<_>>());
            assert!(*distances <= 31 && *distances >= list.len());
        }
    }
    assert_eq!(counters.0, counted);
}

/// Each listed node is seated, they rise by distance, and no seated node left out is nearer.
fn check_closest(table: &Table, target: &[u8], list: &[&[u8]]) {
    let target = keccak256(target);
    let far = |key: &[u8]| distance(&keccak256(key), &target);
    let seated: Vec<&[u8]> =
        table.buckets.iter().flat_map(|bucket| &bucket.entries).map(|entry| &entry.key[..]).collect();
    assert_eq!(list.len(), seated.len().min(16));
    assert!(list.iter().all(|key| seated.contains(key)));
    assert!(list.windows(2).all(|pair| far(pair[0]) < far(pair[1])));
    if let Some(last) = list.last() {
        assert!(seated.iter().all(|key| list.contains(key) || far(key) > far(last)));
    }
}

#[test]
fn runs_from_fresh() {
    for seed in 0..12 {
        let mut calls = Calls::new(seed, 1024, true);
        let buckets = [1, 2, 3, 16, 17, 256][seed as usize % 6];
        let table = Table::init(buckets, &calls.peers.own).unwrap();
        check(&mut calls, table, 600);
    }
}

#[test]
fn runs_from_any_sound_table() {
    for seed in 100..130 {
        let mut calls = Calls::new(seed, 1024, true);
        let table = sound_table(&mut calls, [1, 5, 16, 256][seed as usize % 4]);
        check(&mut calls, table, 100);
    }
}

#[test]
fn lines_read_back_as_calls() {
    let mut calls = Calls::new(7, 512, false);
    let mut table = Table::init(16, &calls.peers.own).unwrap();
    let mut counters = Counters::default();
    let mut made = Vec::new();
    for _ in 0..500 {
        let call = calls.next(Some(&table));
        let text = line(&call);
        if text.len() > LONGEST_LINE {
            continue; // a datagram that no log holds
        }
        let Some(Line::Call(back)) = read(&text) else { panic!("{call:?}") };
        assert_eq!(back, call);
        call.run(&mut table, &mut counters);
        made.push(call);
    }
    // a list of calls run at once gives the same
    let run = run(16, &calls.peers.own, &made).unwrap();
    assert_eq!((run.table, run.counters), (table, counters));
    assert!(made.len() > 490 && run.replies.len() == made.len());
}

#[test]
fn logs_are_the_same_for_the_same_seed() {
    let options = Options::default();
    assert_eq!(log(3, 200, &options).0, log(3, 200, &options).0);
    assert_ne!(log(3, 200, &options).0, log(4, 200, &options).0);
}

#[test]
fn every_case_is_reached() {
    let mut coverage = Coverage::default();
    for seed in 1..=20 {
        let (text, covered) = log(seed, 1500, &Options { keys: Some(2048), ..Options::default() });
        assert!(replay(&text).len() >= 2 * 1499);
        coverage.add(&covered);
    }
    for case in CASES {
        assert!(coverage.count(case) > 0, "{case}");
    }
}
