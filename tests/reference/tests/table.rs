//! Readings T1 to T11 and the rules of the table.

mod common;

use common::*;
use reference::bucket::PingState;
use reference::keccak::keccak256;
use reference::packet::{Endpoint, Node};
use reference::table::*;

const TWELVE_HOURS: u64 = 43_200_000;

/// A log with 16 seated nodes of bucket 255 and `waiting` proved ones in line, all met at 0.
fn full(waiting: usize) -> (Log, Vec<[u8; 64]>) {
    let keys = keys(255, 16 + 4 + 2);
    let mut log = Log::new();
    for key in &keys[..16] {
        assert_eq!(log.meet(0, key), "0\tseat");
    }
    for key in &keys[16..16 + waiting] {
        assert!(log.meet(0, key).starts_with("0\twait\t"));
    }
    (log, keys)
}

fn clock(log: &Log) -> u64 {
    log.replay.table.as_ref().unwrap().clock
}

#[test]
fn t1_only_accepted_calls_set_the_clock() {
    let key = keys(255, 1)[0];
    let mut log = Log::new();
    assert_eq!(log.rx(10, &key, &ping(0)), "0\tpong\tping");
    assert_eq!(clock(&log), 10);
    assert_eq!(log.rx(20, &key, &find_node()), "13");
    assert_eq!(log.pong(20, &key), "14");
    assert_eq!(clock(&log), 10);
    assert_eq!(log.sweep(9), "2");
    assert_eq!(log.sweep(10), "0"); // equal is fine
    assert_eq!(log.sent(30, &key), "0");
    assert_eq!(log.sent(40, &key), "17");
    assert_eq!(clock(&log), 30);
    // 2 comes before 3, 4, ..
    assert_eq!(log.line("rx\t29\t0\t00\t1\t-\t00"), "2");
    assert_eq!(log.line("sent\t29\t00\t00\t1\t1\t00"), "2");
}

#[test]
fn t2_the_ping_hash_stays() {
    let key = keys(255, 1)[0];
    let mut log = Log::new();
    log.meet(1, &key);
    let table = log.replay.table.as_ref().unwrap();
    let entry = table.held(&key).unwrap();
    assert_eq!((entry.ping, entry.ping_hash), (PingState::Quiet, hash_of(&key)));
    // but a pong with it isn't awaited
    assert_eq!(log.pong(2, &key), "14");
}

#[test]
fn t6_the_tcp_port_stays() {
    let key = keys(255, 1)[0];
    let text = reference::hex(&key);
    let hash = reference::hex(&hash_of(&key));
    let mut log = Log::new();
    assert_eq!(log.line(&format!("sent\t1\t{text}\tc0000207\t30303\t5\t{hash}")), "0");
    assert_eq!(log.pong_from(2, &key, &V4), "0\tseat");
    assert_eq!(log.line(&format!("sent\t3\t{text}\tc0000207\t30303\t6\t{hash}")), "0");
    assert!(log.line_of(&key).unwrap().ends_with("\tc0000207\t30303\t5\t2\t2\t3"));
}

#[test]
fn t7_ping_sent() {
    let keys = keys(255, 5);
    let mut log = Log::new();
    // a new node joins the line even if seats are free
    log.sent(1, &keys[0]);
    assert_eq!((log.order("seat").len(), log.order("wait").len()), (0, 1));
    assert!(log.line_of(&keys[0]).unwrap().ends_with("\t0\t-\t1"));
    // 16 before 17; 17 also if the ping is overdue
    assert_eq!(log.sent_to(2, &keys[0], &address_of(&keys[0]), 1), "16");
    assert_eq!(log.sent_to(2, &keys[0], &[1, 2, 3, 4], PORT), "16");
    assert_eq!(log.sent(5000, &keys[0]), "17");
    for key in &keys[1..4] {
        assert_eq!(log.sent(3, key), "0");
    }
    // 18 only for a node not held
    assert_eq!(log.sent(3, &keys[4]), "18");
    assert_eq!(log.sent(3, &keys[3]), "17");
    assert_eq!(log.order("wait"), names(&keys[..4]));
    // 18 also where the four are overdue; a sweep makes room
    assert_eq!(log.sent(5000, &keys[4]), "18");
    log.sweep(5000);
    assert_eq!(log.sent(5000, &keys[4]), "0");
    // the line of another bucket isn't touched
    let other = common::keys(254, 1)[0];
    assert_eq!(log.sent(5000, &other), "0");
}

#[test]
fn t8_pings_from_unverified_nodes() {
    let keys = keys(255, 2);
    let mut log = Log::new();
    // not held
    assert_eq!(log.rx(1, &keys[0], &ping(0)), "0\tpong\tping");
    assert!(log.line_of(&keys[0]).is_none());
    // held, ping out, unproved: no second ping
    log.sent(2, &keys[0]);
    let before = log.line_of(&keys[0]);
    assert_eq!(log.rx(3, &keys[0], &ping(0)), "0\tpong");
    // elsewhere: never a ping
    assert_eq!(log.rx_from(3, &address_of(&keys[0]), 1, &keys[0], &ping(0)), "0\tpong");
    assert_eq!(log.line_of(&keys[0]), before);
    assert_eq!(clock(&log), 3);
    // held, quiet, proof too old: a ping is due and only the clock changes
    assert_eq!(log.pong(4, &keys[0]), "0\tseat");
    assert_eq!(log.meet(5, &keys[1]), "0\tseat");
    let before = log.line_of(&keys[0]);
    assert_eq!(log.rx(5 + TWELVE_HOURS, &keys[0], &ping(0)), "0\tpong\tping");
    assert_eq!(log.line_of(&keys[0]), before);
    assert_eq!(clock(&log), 5 + TWELVE_HOURS);
    // the other's proof is exactly twelve hours old: verified, to the tail
    assert_eq!(log.rx(5 + TWELVE_HOURS, &keys[1], &ping(0)), "0\tpong");
    // elsewhere with an old proof: no ping
    assert_eq!(log.rx_from(5 + TWELVE_HOURS, &address_of(&keys[0]), 1, &keys[0], &ping(0)), "0\tpong");
    // a ping out: no second one
    log.sent(6 + TWELVE_HOURS, &keys[0]);
    assert_eq!(log.rx(6 + TWELVE_HOURS, &keys[0], &ping(0)), "0\tpong");
}

#[test]
fn t9_sweeps_and_old_proofs() {
    let (mut log, keys) = full(2);
    // a waiting node with an old proof goes even with a ping out in time; seats stay
    log.sent(TWELVE_HOURS + 1, &keys[16]);
    log.sweep(TWELVE_HOURS + 1);
    assert_eq!(log.order("wait"), Vec::<String>::new());
    assert_eq!(log.order("seat"), names(&keys[..16]));
    // at exactly twelve hours it stays
    let (mut log, keys) = full(2);
    log.sweep(TWELVE_HOURS);
    assert_eq!(log.order("wait"), names(&keys[16..18]));
    // an unproved one isn't dropped for its proof
    let (mut log, keys) = full(0);
    log.sent(TWELVE_HOURS + 1, &keys[16]);
    log.sweep(TWELVE_HOURS + 1);
    assert_eq!(log.order("wait"), names(&keys[16..17]));
}

#[test]
fn sweeps_seat_in_line_order() {
    let (mut log, keys) = full(2);
    log.sent(10, &keys[18]);
    assert!(log.meet(10, &keys[19]).starts_with("0\twait\t"));
    log.sent(20, &keys[16]); // a ping out to a waiting node is kept when it is seated
    log.sent(20, &keys[3]);
    log.sent(20, &keys[5]);
    log.rx(200, &keys[17], &find_node()); // seen again: keeps its place
    log.pong(200, &keys[16]); // still waiting: the bucket is full
    log.sent(300, &keys[16]);
    log.sweep(510);
    assert_eq!((log.order("seat").len(), log.order("wait").len()), (16, 4));
    log.sweep(521); // two seated nodes and the unproved one are overdue
    let mut expected: Vec<[u8; 64]> = keys[..16].to_vec();
    expected.retain(|key| *key != keys[3] && *key != keys[5]);
    expected.extend([keys[16], keys[17]]);
    assert_eq!(log.order("seat"), names(&expected));
    assert_eq!(log.order("wait"), names(&[keys[19]]));
    assert!(log.line_of(&keys[16]).unwrap().ends_with("\t200\t200\t300"));
    assert!(log.line_of(&keys[17]).unwrap().ends_with("\t200\t0\tquiet"));
}

#[test]
fn an_unproved_node_is_passed_over() {
    let (mut log, keys) = full(0);
    log.sent(400, &keys[0]);
    log.sent(450, &keys[16]);
    assert!(log.meet(460, &keys[17]).starts_with("0\twait\t"));
    log.sweep(901); // the head is overdue, the first in line isn't
    let mut expected = keys[1..16].to_vec();
    expected.push(keys[17]);
    assert_eq!(log.order("seat"), names(&expected));
    assert_eq!(log.order("wait"), names(&keys[16..17]));
}

#[test]
fn a_pong_takes_a_free_seat() {
    let (mut log, keys) = full(1);
    log.sent(100, &keys[4]);
    log.sent(300, &keys[17]);
    log.sweep(601); // keys[4] goes, keys[16] is seated
    assert_eq!(log.order("seat").last(), names(&keys[16..17]).first());
    assert!(log.pong(700, &keys[17]).starts_with("0\twait\t"));
    log.sent(700, &keys[6]);
    log.sweep(1201); // keys[6] goes, keys[17] is seated
    assert_eq!(log.order("wait").len(), 0);
    log.sent(1201, &keys[7]);
    log.sweep(1702);
    assert_eq!(log.order("seat").len(), 15);
    assert_eq!(log.meet(1702, &keys[18]), "0\tseat");
}

#[test]
fn order_of_seats() {
    let keys = keys(255, 3);
    let mut log = Log::new();
    for (key, now) in keys.iter().zip([1, 2, 3]) {
        log.meet(now, key);
    }
    // a verified sender goes to the tail; from elsewhere, or refused, it doesn't
    log.rx(4, &keys[0], &find_node());
    assert_eq!(log.order("seat"), names(&[keys[1], keys[2], keys[0]]));
    log.rx_from(5, &address_of(&keys[1]), 1, &keys[1], &ping(0));
    log.rx_from(5, &address_of(&keys[1]), 1, &keys[1], &find_node());
    assert_eq!(log.order("seat"), names(&[keys[1], keys[2], keys[0]]));
    log.rx(6, &keys[1], &ping(0));
    assert_eq!(log.order("seat"), names(&[keys[2], keys[0], keys[1]]));
    // a ping sent doesn't move it
    log.sent(7, &keys[2]);
    assert_eq!(log.order("seat"), names(&[keys[2], keys[0], keys[1]]));
    assert_eq!(log.pong(7, &keys[2]), "0\ttail");
    assert_eq!(log.order("seat"), names(&[keys[0], keys[1], keys[2]]));
}

#[test]
fn pongs_not_awaited() {
    let keys = keys(255, 2);
    let mut log = Log::new();
    assert_eq!(log.pong(1, &keys[0]), "14"); // not held
    log.sent(1, &keys[0]);
    assert_eq!(log.rx(2, &keys[0], &pong(&[9; 32])), "14"); // another hash
    assert_eq!(log.rx_from(2, &address_of(&keys[0]), 1, &keys[0], &pong(&hash_of(&keys[0]))), "14"); // another port
    assert_eq!(log.rx_from(2, &[1, 1, 1, 1], PORT, &keys[0], &pong(&hash_of(&keys[0]))), "14");
    assert_eq!(log.rx(2, &keys[1], &pong(&hash_of(&keys[0]))), "14"); // another signer
    assert_eq!(log.rx_from(600, &address_of(&keys[0]), 1, &keys[0], &pong(&hash_of(&keys[0]))), "14"); // 14 before 15
    assert_eq!(log.pong(502, &keys[0]), "15");
    assert_eq!(log.pong(2, &keys[0]), "0\tseat");
}

#[test]
fn t10_times_near_the_end_of_64_bits() {
    let key = keys(255, 1)[0];
    let mut log = Log::new();
    assert_eq!(log.sent(u64::MAX - 500, &key), "0");
    log.sweep(u64::MAX);
    assert_eq!(log.pong(u64::MAX, &key), "0\tseat");
    assert_eq!(log.rx(u64::MAX, &key, &find_node()), "0\tfind");
}

#[test]
fn t11_the_counters() {
    let key = keys(255, 1)[0];
    let mut log = Log::new();
    log.meet(1, &key);
    log.sweep(0);
    log.sweep(2);
    log.line("no such line");
    let mut expected = [0; 22];
    expected[0] = 3;
    expected[2] = 1;
    assert_eq!(log.replay.counters.0, expected);
    let mut counters = Counters::default();
    counters.0[13] = u32::MAX - 1;
    for _ in 0..3 {
        counters.raise(13);
    }
    assert_eq!(counters.0[13], u32::MAX);
    assert_eq!(counters.0.iter().filter(|count| **count > 0).count(), 1);
}

#[test]
fn init_and_kept_buckets() {
    for buckets in [0, 257, u64::MAX] {
        assert_eq!(Table::init(buckets, &OWN).err(), Some(1));
        assert_eq!(Table::init(buckets, &[]).err(), Some(1));
    }
    assert_eq!(Table::init(1, &[0; 63]).err(), Some(5));
    for buckets in [1, 16, 256] {
        assert!(Table::init(buckets, &OWN).unwrap().is_sound());
    }
    let mut log = Log { replay: Default::default() };
    assert_eq!(log.line(&format!("own\t2\t{}", reference::hex(&OWN))), "0");
    let [kept, not_kept] = [254, 253].map(|bucket| keys(bucket, 1)[0]);
    assert_eq!(log.sent(1, &kept), "0");
    assert_eq!(log.sent(1, &not_kept), "12");
    assert_eq!(log.rx(1, &not_kept, &ping(0)), "12");
    assert_eq!(log.pong(1, &not_kept), "12"); // 12 before 14
    assert_eq!(log.rx(1, &not_kept, &find_node()), "12"); // and before 13
                                                          // 7 before 12: the own key is in no bucket
    assert_eq!(log.sent(1, &OWN), "7");
    assert_eq!(log.rx(1, &OWN, &ping(0)), "7");
}

#[test]
fn closest() {
    let (mut log, keys) = full(1);
    let near = common::keys(254, 2);
    for key in &near {
        log.meet(1, key);
    }
    let table = log.replay.table.as_ref().unwrap();
    let blank = Node { endpoint: Endpoint { address: vec![], udp: 0, tcp: 0 }, key: vec![] };
    let mut list = vec![blank.clone(); 18];
    assert_eq!(table.closest(&mut list, &[0; 63]), Err(5));
    assert_eq!(table.closest(&mut list[..15], &[0; 63]), Err(5));
    assert_eq!(table.closest(&mut list[..15], &OWN), Err(19));
    // the own key as target: the nearer bucket first
    assert_eq!(table.closest(&mut list, &OWN), Ok(Listed { count: 16, distances: 18 }));
    assert!(near.iter().all(|key| list[..2].iter().any(|node| node.key == key)));
    assert_eq!(list[16..], [blank.clone(), blank.clone()]);
    // a node is nearest to itself; waiting ones aren't listed
    assert_eq!(table.closest(&mut list, &keys[5]), Ok(Listed { count: 16, distances: 16 }));
    assert_eq!(list[0].key, keys[5]);
    table.closest(&mut list, &keys[16]).unwrap();
    assert!(list.iter().all(|node| node.key != keys[16]));
    // fewer than sixteen: the others untouched
    let fresh = Table::init(16, &OWN).unwrap();
    let before = list.clone();
    assert_eq!(fresh.closest(&mut list, &OWN), Ok(Listed { count: 0, distances: 0 }));
    assert_eq!(list, before);
}

/// C-18: which buckets are taken, and how many distances are worked out.
#[test]
fn closest_takes_buckets_in_order() {
    let mut log = Log::new();
    let blank = Node { endpoint: Endpoint { address: vec![], udp: 0, tcp: 0 }, key: vec![] };
    let counts = |log: &Log, target: &[u8; 64]| {
        let table = log.replay.table.as_ref().unwrap();
        let listed = table.closest(&mut vec![blank.clone(); 16], target).unwrap();
        (table.taken(&keccak256(target)).len(), listed.count, listed.distances)
    };
    let [far, near, nearer] = [keys(255, 16), keys(254, 15), keys(251, 3)];
    // nothing seated, then nine in all: every kept bucket is taken
    assert_eq!(counts(&log, &OWN), (16, 0, 0));
    for key in &near[..9] {
        log.meet(1, key);
    }
    assert_eq!(counts(&log, &OWN), (16, 9, 9));
    for key in near[9..].iter().chain(&far) {
        log.meet(1, key);
    }
    // the own key as target: rising; 15 in bucket 254, then 16 in 255
    assert_eq!(counts(&log, &OWN), (16, 16, 31));
    // bit 255 is set: sixteen in the first bucket, and no other is taken
    assert_eq!(counts(&log, &far[0]), (1, 16, 16));
    // bit 254 is the highest that is set: 254 first, then lower set bits, clear ones rising, 255 last
    assert_eq!(counts(&log, &near[0]), (16, 16, 31));
    for key in &nearer {
        log.meet(1, key);
    }
    // three in bucket 251 and 15 in 254 are enough: 240 to 254 for the own key
    assert_eq!(counts(&log, &OWN), (15, 16, 18));
    // kept buckets only: of three, none is numbered by a set bit, so 253, 254, 255
    let mut small = Table::init(3, &OWN).unwrap();
    small.own = [0; 32];
    let mut low = [0; 32];
    low[31] = 0xff;
    assert_eq!(small.taken(&low), [0, 1, 2]);
    low[0] = 0xa0;
    assert_eq!(small.taken(&low), [2, 0, 1]);
}
