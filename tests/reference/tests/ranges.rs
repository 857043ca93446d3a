//! C-16: at most two seats of a range in a bucket. The edge cases by hand.

mod common;

use common::*;
use reference::bucket::Bucket;
use reference::calls::Call;
use reference::layout::{read, run, table_bytes};
use reference::packet::Endpoint;
use reference::table::{Counters, Table};

/// Addresses of 192.0.2.0/24 (R), 192.0.3.0/24 and 198.0.2.0/24.
fn r(last: u8) -> [u8; 4] {
    [192, 0, 2, last]
}

fn s(last: u8) -> [u8; 4] {
    [192, 0, 3, last]
}

fn far(last: u8) -> [u8; 4] {
    [198, 0, 2, last]
}

/// A log with two seats of R and then so many in ranges of their own, all met at 0; the keys of bucket 255.
fn seated(others: usize) -> (Log, Vec<[u8; 64]>) {
    let keys = keys(255, 24);
    let mut log = Log::new();
    for (key, last) in keys[..2].iter().zip([1, 2]) {
        assert_eq!(log.meet_at(0, key, &r(last)), "0\tseat");
    }
    for key in &keys[2..2 + others] {
        assert_eq!(log.meet_at(0, key, &[10, key[6], key[7], 1]), "0\tseat");
    }
    (log, keys)
}

fn bucket(log: &Log) -> &Bucket {
    log.replay.table.as_ref().unwrap().buckets.last().unwrap()
}

/// How the head of the bucket is named behind `wait`.
fn head(key: &[u8], ping: &str) -> String {
    format!("0\twait\t{}\t{ping}", reference::hex(&key[..8]))
}

#[test]
fn the_third_of_a_range_waits_beside_free_seats() {
    let (mut log, keys) = seated(0);
    assert_eq!(log.meet_at(1, &keys[2], &r(3)), "0\twait");
    // nodes of other ranges behind it are seated at once
    assert_eq!(log.meet_at(2, &keys[3], &s(1)), "0\tseat");
    assert_eq!(log.meet_at(3, &keys[4], &far(1)), "0\tseat");
    assert_eq!(log.order("seat"), names(&[keys[0], keys[1], keys[3], keys[4]]));
    assert_eq!(log.order("wait"), names(&keys[2..3]));
    // a sweep that frees nothing of the range leaves it there, and so does its next pong
    log.sweep(4);
    assert_eq!(log.order("wait"), names(&keys[2..3]));
    assert_eq!(log.meet_at(5, &keys[2], &r(3)), "0\twait");
    // a seat of the range goes to the tail
    assert_eq!(log.meet_at(6, &keys[0], &r(1)), "0\ttail");
    assert_eq!(log.order("seat").last(), names(&keys[..1]).first());
}

#[test]
fn sixteen_byte_addresses_have_no_range() {
    let (mut log, keys) = seated(0);
    let mapped = bytes("00000000000000000000ffff c0000207");
    let alike = bytes("c0000207 000000000000000000000000");
    // equal ones, one that is of R as IPv4-mapped, one that begins like R
    for (key, address) in keys[2..].iter().zip([&alike, &alike, &alike, &mapped, &mapped, &mapped]) {
        assert_eq!(log.meet_at(1, key, address), "0\tseat");
    }
    assert_eq!(log.meet_at(1, &keys[8], &r(3)), "0\twait");
    assert!(log.replay.table.as_ref().unwrap().is_sound());
    // nor are they counted for a 4-byte one
    let mut log = Log::new();
    for (key, address) in keys.iter().zip([&alike, &alike, &mapped]) {
        assert_eq!(log.meet_at(1, key, address), "0\tseat");
    }
    assert_eq!(log.meet_at(1, &keys[3], &r(3)), "0\tseat");
    assert_eq!(log.meet_at(1, &keys[4], &r(4)), "0\tseat");
    assert_eq!(log.meet_at(1, &keys[5], &r(5)), "0\twait");
}

#[test]
fn a_sweep_seats_one_of_two_where_one_seat_of_the_range_is_left() {
    let (mut log, keys) = seated(3);
    assert_eq!(log.meet_at(0, &keys[10], &r(3)), "0\twait");
    assert_eq!(log.meet_at(0, &keys[11], &r(4)), "0\twait");
    log.sent_to(10, &keys[1], &r(2), PORT);
    log.sweep(511); // the second seat of R goes: its range is filled again in this sweep
    assert_eq!(log.order("seat"), names(&[keys[0], keys[2], keys[3], keys[4], keys[10]]));
    assert_eq!(log.order("wait"), names(&keys[11..12]));
    // both seats of R go, and one waits: it is seated, and a new one beside it
    log.sent_to(600, &keys[0], &r(1), PORT);
    log.sent_to(600, &keys[10], &r(3), PORT);
    log.sweep(1101);
    assert_eq!(log.order("seat"), names(&[keys[2], keys[3], keys[4], keys[11]]));
    assert_eq!(log.meet_at(1101, &keys[12], &r(5)), "0\tseat");
    assert_eq!(log.meet_at(1101, &keys[13], &r(6)), "0\twait");
}

#[test]
fn a_sweep_passes_over_a_node_and_seats_the_next() {
    let (mut log, keys) = seated(14);
    // 16 seats, two of R: `wait` alone for R; a node of another range is told the head
    assert_eq!(log.meet_at(1, &keys[16], &r(3)), "0\twait");
    assert_eq!(log.meet_at(1, &keys[17], &s(1)), head(&keys[0], "quiet"));
    log.sent_to(2, &keys[5], &[10, keys[5][6], keys[5][7], 1], PORT);
    log.sweep(503); // 15 seats, two of R: R is passed over
    assert_eq!(log.order("seat").last(), names(&keys[17..18]).first());
    assert_eq!(log.order("wait"), names(&keys[16..17]));
    // the head is named again once the range has a seat less and no seat is free
    assert_eq!(log.meet_at(504, &keys[18], &s(2)), head(&keys[0], "quiet"));
    log.sent_to(504, &keys[0], &r(1), PORT);
    assert_eq!(log.meet_at(505, &keys[16], &r(3)), "0\twait");
    assert_eq!(log.meet_at(505, &keys[18], &s(2)), head(&keys[0], "504"));
    log.sweep(1005); // a seat of R goes, and the first in line is R again
    assert_eq!(log.order("seat").last(), names(&keys[16..17]).first());
    assert_eq!(log.order("wait"), names(&keys[18..19]));
}

#[test]
fn a_freed_range_waits_where_those_ahead_take_the_last_seat() {
    let (mut log, keys) = seated(14);
    assert_eq!(log.meet_at(1, &keys[16], &far(1)), head(&keys[0], "quiet"));
    assert_eq!(log.meet_at(1, &keys[17], &r(3)), "0\twait");
    log.sent_to(2, &keys[0], &r(1), PORT);
    log.sweep(503); // a seat of R goes, and the node ahead takes it
    assert_eq!(log.order("seat").last(), names(&keys[16..17]).first());
    assert_eq!(log.order("wait"), names(&keys[17..18]));
    assert_eq!(bucket(&log).entries.len(), 16);
    // now R has one seat, and no seat is free: the head is named
    assert_eq!(log.meet_at(504, &keys[17], &r(3)), head(&keys[1], "quiet"));
}

#[test]
fn seats_given_in_a_sweep_count_and_seats_lost_in_it_dont() {
    let (mut log, keys) = seated(14);
    for (key, last) in keys[16..19].iter().zip([3, 4, 5]) {
        assert_eq!(log.meet_at(1, key, &r(last)), "0\twait");
    }
    for (key, last) in keys[..2].iter().zip([1, 2]) {
        log.sent_to(2, key, &r(last), PORT);
    }
    log.sent_to(2, &keys[5], &[10, keys[5][6], keys[5][7], 1], PORT);
    log.sweep(503); // three seats are free, none of R: two of the three are seated
    assert_eq!(log.order("seat")[13..], names(&keys[16..18]));
    assert_eq!(log.order("wait"), names(&keys[18..19]));
    assert_eq!(bucket(&log).entries.len(), 15);
}

#[test]
fn the_line_has_no_cap() {
    let (mut log, keys) = seated(0);
    for (key, last) in keys[2..6].iter().zip([3, 4, 5, 6]) {
        assert_eq!(log.meet_at(1, key, &r(last)), "0\twait");
    }
    // 14 seats are free, and no new node comes in until the proofs are twelve hours old
    assert_eq!(log.sent_to(2, &keys[6], &s(1), PORT), "18");
    log.sweep(1 + 43_200_000);
    assert_eq!(log.sent_to(1 + 43_200_000, &keys[6], &s(1), PORT), "18");
    log.sweep(2 + 43_200_000);
    assert_eq!(log.meet_at(2 + 43_200_000, &keys[6], &s(1)), "0\tseat");
}

#[test]
fn buckets_are_independent_and_a_node_keeps_its_range() {
    let (mut log, keys) = seated(0);
    let near = common::keys(254, 3);
    assert_eq!(log.meet_at(1, &near[0], &r(1)), "0\tseat");
    assert_eq!(log.meet_at(1, &near[1], &r(2)), "0\tseat");
    assert_eq!(log.meet_at(1, &near[2], &r(3)), "0\twait");
    // held at one address, it isn't pinged at another
    assert_eq!(log.meet_at(1, &keys[2], &s(1)), "0\tseat");
    assert_eq!(log.sent_to(2, &keys[2], &r(9), PORT), "16");
    assert_eq!(log.meet_at(2, &keys[3], &s(2)), "0\tseat");
}

#[test]
fn sound_tables_have_at_most_two_seats_of_a_range() {
    let (mut log, keys) = seated(3);
    assert_eq!(log.meet_at(0, &keys[10], &r(3)), "0\twait");
    let table = log.replay.table.unwrap();
    // refused is a table whose bucket 255 is changed so
    let refused = |change: fn(&mut Bucket)| {
        let mut other = table.clone();
        change(other.buckets.last_mut().unwrap());
        let mut memory = table_bytes(&other);
        let sweep = Call::Sweep { now: 0 };
        let number = run(&mut memory, &mut Counters::default(), &sweep).number();
        assert_eq!((other.is_sound(), read(&memory).is_some()), (number == 0, number == 0));
        number == 1
    };
    let at = |bucket: &mut Bucket, seat: usize, address: &[u8]| {
        bucket.entries[seat].endpoint = Endpoint { address: address.to_vec(), udp: 1, tcp: 1 };
    };
    assert!(!refused(|_| {}));
    // a third seat of R, in whatever order
    assert!(refused(|bucket| bucket.entries[4].endpoint.address = r(9).to_vec()));
    assert!(refused(|bucket| bucket.entries[4].endpoint.address = r(1).to_vec()));
    assert!(!refused(|bucket| bucket.entries[4].endpoint.address = s(1).to_vec()));
    // the waiting node beside free seats: its range at two, at one, none; unproved; with 16 bytes
    assert!(refused(|bucket| bucket.entries[0].endpoint.address = s(1).to_vec()));
    assert!(refused(|bucket| bucket.replacements[0].endpoint.address = s(1).to_vec()));
    assert!(refused(|bucket| bucket.replacements[0].endpoint.address = vec![192; 16]));
    assert!(refused(|bucket| bucket.replacements[0].proof = None));
    assert!(!refused(|bucket| {
        bucket.replacements[0].proof = None;
        bucket.replacements[0].ping = reference::bucket::PingState::Out(0);
        bucket.entries[0].endpoint.address = s(1).to_vec();
    }));
    // sixteen equal addresses of 16 bytes
    let mut other = Table { clock: 0, ..table.clone() };
    let bucket = other.buckets.last_mut().unwrap();
    bucket.replacements.clear();
    for seat in 0..bucket.entries.len() {
        at(bucket, seat, &[7; 16]);
    }
    assert!(other.is_sound() && read(&table_bytes(&other)) == Some(other));
}
