//! Calls of different buckets at one millisecond in another order (C-19): the same table, counters and answer of each call; and what
//! must not be changed over. COGHAMMER_CALLS says how many calls (20,000), COGHAMMER_SEED from which seed.

mod common;

use coghammer::{Accepted, Counters, Head, MonotonicMillis, Number, Standing, Table, UnixSeconds};
use common::counted;
use reference::calls::Call;
use reference::generator::calls::Calls;
use reference::generator::datagrams;
use reference::generator::tables::sound_table;
use reference::keccak::keccak256;
use reference::layout::table_bytes;
use reference::packet::Endpoint;
use reference::table;

/// What one call is answered; of a waiting pong also the head that its answer names.
#[derive(Clone, Debug, PartialEq)]
enum Told {
    Packet(Result<(Accepted, Option<Head>), Number>),
    Number(Result<(), Number>),
}

/// A table with its counters.
#[derive(Clone)]
struct Lent {
    table: Table,
    counters: Counters,
}

impl Lent {
    fn call(&mut self, call: &Call) -> Told {
        let Lent { table, counters } = self;
        match call {
            Call::Datagram { now, unix, address, port, signer, datagram } => {
                let (now, unix) = (MonotonicMillis(*now), UnixSeconds(*unix));
                let answer = table.datagram(counters, now, unix, address, *port, signer, datagram);
                Told::Packet(answer.map(|accepted| {
                    let waits = matches!(accepted, Accepted::Pong(Standing::Waiting));
                    (accepted, if waits { table.head(signer).expect("a touched bucket") } else { None })
                }))
            }
            Call::PingSent { now, key, endpoint: Endpoint { address, udp, tcp }, hash } => {
                Told::Number(table.ping_sent(counters, MonotonicMillis(*now), key, address, *udp, *tcp, hash))
            }
            Call::Sweep { now } => Told::Number(table.sweep(counters, MonotonicMillis(*now))),
            Call::Closest { .. } => unreachable!("not among these calls"),
        }
    }

    /// Each call's answer, in the order of `calls`, though they are made in `order`.
    fn run(&mut self, calls: &[Call], order: &[usize]) -> Vec<Told> {
        let mut told: Vec<(usize, Told)> = order.iter().map(|i| (*i, self.call(&calls[*i]))).collect();
        told.sort_by_key(|(i, _)| *i);
        told.into_iter().map(|(_, told)| told).collect()
    }
}

/// The kept bucket that a datagram's or a ping-sent's key falls in.
fn bucket(table: &table::Table, call: &Call) -> Option<usize> {
    match call {
        Call::Datagram { signer: key, .. } | Call::PingSent { key, .. } if key.len() == 64 => {
            table.index(&keccak256(key))
        }
        _ => None,
    }
}

/// An order that deals out the buckets' calls anew, each bucket's own in order.
fn merge(calls: &mut Calls, buckets: &[usize]) -> Vec<usize> {
    let mut left: Vec<usize> = (0..buckets.len()).collect();
    let mut order = Vec::new();
    while !left.is_empty() {
        let any = left[calls.random.below(left.len())];
        let first = left.iter().position(|i| buckets[*i] == buckets[any]).unwrap();
        order.push(left.remove(first));
    }
    order
}

#[test]
fn stretches_in_another_order() {
    let (mut made, mut moved, mut refused) = (0, 0, 0);
    for seed in common::seed().. {
        if made >= common::calls(20_000) {
            break;
        }
        let mut calls = Calls::new(seed, 256, false);
        let mut theirs = sound_table(&mut calls, [2, 3, 16, 256][seed as usize % 4]);
        let mut ours = Lent { table: Table::from_bytes(table_bytes(&theirs)), counters: Counters::default() };
        for _ in 0..60 {
            // below the clock, at it, or above it
            let step = *calls.random.pick(&[0, 1, 1, 1, 500, 501, 43_200_000]);
            let millis = if step == 0 {
                theirs.clock.saturating_sub(1)
            } else {
                theirs.clock.saturating_add(step - 1)
            };
            let most = calls.random.between(2, 12) as usize;
            let mut stretch = Vec::new();
            for _ in 0..10 * most {
                let call = calls.next(Some(&theirs)).at(millis);
                if stretch.len() < most && bucket(&theirs, &call).is_some() {
                    stretch.push(call);
                }
            }
            let buckets: Vec<usize> = stretch.iter().filter_map(|call| bucket(&theirs, call)).collect();
            let order = merge(&mut calls, &buckets);
            let mut other = ours.clone();
            let straight = ours.run(&stretch, &(0..stretch.len()).collect::<Vec<_>>());
            let merged = other.run(&stretch, &order);
            assert_eq!(straight, merged, "answers of seed {seed}");
            assert!(ours.table.bytes() == other.table.bytes(), "bytes of seed {seed}");
            assert_eq!(ours.counters.counts, other.counters.counts, "counters of seed {seed}");
            made += stretch.len();
            moved += order.iter().enumerate().filter(|(i, j)| i != *j).count();
            refused += straight
                .iter()
                .filter(|told| matches!(told, Told::Packet(Err(_)) | Told::Number(Err(_))))
                .count();
            // on from here, with a sweep at times
            let mut counters = table::Counters::default();
            for call in &stretch {
                call.run(&mut theirs, &mut counters);
            }
            if calls.random.chance(30) {
                let sweep = Call::Sweep { now: theirs.clock.saturating_add(calls.random.between(0, 600)) };
                sweep.run(&mut theirs, &mut counters);
                ours.call(&sweep);
            }
            assert!(ours.table.bytes() == table_bytes(&theirs), "bytes after a stretch of seed {seed}");
        }
    }
    assert!(
        moved * 4 > made && refused * 20 > made && refused * 20 < made * 19,
        "{made} made, {moved} moved, {refused} refused"
    );
    counted(made, "calls in two orders agree");
}

// ---- what looks the same and isn't: each pair must end otherwise in the other order

/// Keys of two buckets of a table of 16, as many of each as asked for.
fn keys(own: &[u8; 64], count: usize) -> [Vec<[u8; 64]>; 2] {
    let table = table::Table::init(16, own).unwrap();
    let mut found = [Vec::new(), Vec::new()];
    for n in 0u64.. {
        let mut key = [0x11; 64];
        key[..8].copy_from_slice(&n.to_be_bytes());
        match table.index(&keccak256(&key)) {
            Some(15) if found[0].len() < count => found[0].push(key),
            Some(14) if found[1].len() < count => found[1].push(key),
            _ if found.iter().all(|keys| keys.len() == count) => break,
            _ => {}
        }
    }
    found
}

fn ping_sent(now: u64, key: &[u8; 64]) -> Call {
    // each in a range of its own
    let endpoint = Endpoint { address: vec![10, key[6], key[7], 1], udp: 30303, tcp: 30303 };
    Call::PingSent { now, key: key.to_vec(), endpoint, hash: keccak256(key).to_vec() }
}

fn pong(calls: &mut Calls, now: u64, key: &[u8; 64]) -> Call {
    let datagram = datagrams::good(&mut calls.random, 2, 9, &keccak256(key));
    let address = vec![10, key[6], key[7], 1];
    Call::Datagram { now, unix: 9, address, port: 30303, signer: key.to_vec(), datagram }
}

/// Whether the table or an answer is another one where the last two calls are changed over.
fn differs(table: Table, calls: &[Call]) -> bool {
    let mut straight = Lent { table, counters: Counters::default() };
    let mut other = straight.clone();
    let mut order: Vec<usize> = (0..calls.len()).collect();
    let answers = straight.run(calls, &order);
    order.swap(calls.len() - 2, calls.len() - 1);
    answers != other.run(calls, &order) || straight.table.bytes() != other.table.bytes()
}

#[test]
fn what_must_stay_in_place() {
    let own = [0xee; 64];
    let fresh = || Table::new(&own, 16).unwrap();
    let mut calls = Calls::new(1, 16, false);
    let [far, near] = keys(&own, 22);

    // different buckets at one millisecond: the one pair that may
    assert!(!differs(fresh(), &[ping_sent(5, &far[0]), ping_sent(5, &near[0])]));
    // two milliseconds: the one at 5 is 2 behind the one at 6
    assert!(differs(fresh(), &[ping_sent(5, &far[0]), ping_sent(6, &near[0])]));
    // one bucket: one waiting place is left for two
    let line: Vec<Call> = far[..5].iter().map(|key| ping_sent(5, key)).collect();
    assert!(differs(fresh(), &line));
    // a sweep at the same millisecond: sixteen seats, one of them overdue; the pong waits, or is seated
    let mut full: Vec<Call> =
        far[..16].iter().flat_map(|key| [ping_sent(0, key), pong(&mut calls, 0, key)]).collect();
    full.extend([
        ping_sent(0, &far[0]),
        ping_sent(400, &far[16]),
        pong(&mut calls, 501, &far[16]),
        Call::Sweep { now: 501 },
    ]);
    assert!(differs(fresh(), &full));
    // bytes that no run reaches: a bucket with a time above the clock is 1, until a call of another bucket sets the clock past it
    let mut table = fresh();
    let mut counters = Counters::default();
    assert_eq!(
        table.ping_sent(&mut counters, MonotonicMillis(9), &far[0], &[10, 0, 0, 1], 1, 1, &[0; 32]),
        Ok(())
    );
    let mut bytes = table.into_bytes();
    bytes[32..40].fill(0);
    assert!(differs(Table::from_bytes(bytes), &[ping_sent(20, &far[1]), ping_sent(20, &near[0])]));
}
