//! Bursts (C-15), here and in the reference: the same number, list of numbers, counters and table bytes; and the
//! same as the datagrams one at a time. COGHAMMER_CALLS says how many datagrams (8,000), COGHAMMER_SEED from
//! which seed.

mod common;

use std::collections::BTreeMap;

use coghammer::{Burst, Counters, MonotonicMillis, Number, Table, UnixSeconds, MOST};
use common::{counted, told};
use reference::calls::Call;
use reference::generator::calls::Calls;
use reference::generator::damage::{damage, Store, KINDS};
use reference::generator::random::Random;
use reference::generator::tables::sound_table;
use reference::layout::{self, table_bytes};
use reference::{burst, table};

/// What the list of numbers holds before a call.
const BEFORE: u8 = 0xee;

fn lists(burst: &Burst) -> burst::Burst {
    let Burst { buffer, lengths, signers, addresses, ports, millis, unix } = burst.clone();
    let millis = millis.into_iter().map(|clock| clock.0).collect();
    let unix = unix.into_iter().map(|clock| clock.0).collect();
    burst::Burst { buffer, lengths, signers, addresses, ports, millis, unix }
}

fn push(burst: &mut Burst, call: &Call) {
    let Call::Datagram { now, unix, address, port, signer, datagram } = call else { panic!("{call:?}") };
    burst.push(MonotonicMillis(*now), UnixSeconds(*unix), address, *port, signer, datagram);
}

/// A burst here and in the reference, on the same bytes, with a list of `room` numbers; its number and the list.
fn compare(memory: &mut Vec<u8>, burst: &Burst, room: usize) -> (u8, Vec<u8>) {
    let before = memory.clone();
    let mut counters = Counters { counts: std::array::from_fn(|i| i as u32) };
    let mut their_counters = table::Counters(counters.counts);
    let (mut numbers, mut their_numbers) = (vec![Number(BEFORE); room], vec![BEFORE; room]);
    let mut ours = Table::from_bytes(std::mem::take(memory));
    let mut theirs = before.clone();
    let number = told(ours.burst(&mut counters, &mut numbers, burst)).err().unwrap_or(0);
    let numbers: Vec<u8> = numbers.into_iter().map(|number| number.0).collect();
    assert_eq!(number, lists(burst).run(&mut theirs, &mut their_counters, &mut their_numbers), "{burst:?}");
    assert_eq!(numbers, their_numbers, "numbers of {burst:?}");
    assert_eq!(counters.counts, their_counters.0, "counters after {burst:?}");
    assert!(ours.bytes() == theirs, "bytes after {burst:?}");
    if number != 0 {
        assert_eq!(number, 28);
        assert!(numbers.iter().all(|number| *number == BEFORE) && ours.bytes() == before);
    }
    *memory = ours.into_bytes();
    (number, numbers)
}

/// The same datagrams one at a time, here: the same numbers, counters and bytes.
fn one_at_a_time(memory: &[u8], calls: &[Call]) {
    let mut burst = Burst::default();
    calls.iter().for_each(|call| push(&mut burst, call));
    let (mut whole, mut single) = (Table::from_bytes(memory.to_vec()), Table::from_bytes(memory.to_vec()));
    let (mut counters, mut one_by_one) = (Counters::default(), Counters::default());
    let mut numbers = vec![Number(BEFORE); calls.len()];
    assert_eq!(whole.burst(&mut counters, &mut numbers, &burst), Ok(()));
    for (call, number) in calls.iter().zip(numbers) {
        let Call::Datagram { now, unix, address, port, signer, datagram } = call else { unreachable!() };
        // a key of zeros is the empty one in a burst, and a key like any other by itself
        let signer = if signer[..] == [0; 64] { &[] } else { &signer[..] };
        let (now, unix) = (MonotonicMillis(*now), UnixSeconds(*unix));
        let answer = single.datagram(&mut one_by_one, now, unix, address, *port, signer, datagram);
        assert_eq!(answer.err().unwrap_or(Number::DONE), number, "{call:?}");
    }
    assert_eq!(counters, one_by_one);
    assert!(whole == single);
}

/// The next datagrams of a run, each after those before it.
fn datagrams(calls: &mut Calls, memory: &[u8], count: usize) -> Vec<Call> {
    let (mut memory, mut counters) = (memory.to_vec(), table::Counters::default());
    let mut found = Vec::new();
    while found.len() < count {
        let table = layout::read(&memory);
        let mut call = calls.next(table.as_ref());
        let Call::Datagram { now, signer, address, .. } = &mut call else { continue };
        match calls.random.below(40) {
            0 => *signer = vec![0; 64],
            1 => *signer = Vec::new(),
            2 => {
                let length = *calls.random.pick(&[0, 3, 5, 7, 15, 17, 200, 255]);
                *address = calls.random.bytes(length);
            }
            3 => *now = now.saturating_sub(1),
            _ => {}
        }
        layout::run(&mut memory, &mut counters, &call);
        found.push(call);
    }
    found
}

#[test]
fn sequences_with_bursts() {
    let total = common::calls(8_000);
    let mut random = Random::new(common::seed());
    let (mut made, mut bursts, mut reached) = (0, 0, BTreeMap::new());
    while made < total {
        let buckets = *random.pick(&[1, 1, 2, 3, 3, 16, 16, 17]);
        let mut calls = Calls::new(random.number(), *random.pick(&[32, 64, 128, 512]), true);
        let mut memory = if random.chance(50) {
            table_bytes(&sound_table(&mut calls, buckets))
        } else {
            table_bytes(&table::Table::init(buckets, &calls.peers.own).unwrap())
        };
        for _ in 0..random.between(2, 12) {
            // single calls between the bursts: nodes are pinged, and swept
            for _ in 0..random.between(0, 30) {
                let call = calls.next(layout::read(&memory).as_ref());
                layout::run(&mut memory, &mut table::Counters::default(), &call);
            }
            let count = random.below(MOST + 3);
            let found = datagrams(&mut calls, &memory, count);
            let mut burst = Burst::default();
            found.iter().for_each(|call| push(&mut burst, call));
            assert_eq!(burst.len(), count);
            if count <= MOST {
                one_at_a_time(&memory, &found);
            }
            let (number, numbers) = compare(&mut memory, &burst, count);
            assert_eq!(number, if count <= MOST { 0 } else { 28 });
            for answer in numbers {
                *reached.entry(answer).or_insert(0) += 1;
            }
            made += count;
            bursts += 1;
        }
    }
    for (number, count) in &reached {
        let _: &usize = count;
        println!("{count:>9}  burst, {number}");
    }
    let missing: Vec<u8> = (0..16).filter(|number| *number != 1 && !reached.contains_key(number)).collect();
    assert!(missing.is_empty() || total < 8_000, "never reached: {missing:?}");
    counted(made, "datagrams in bursts agree in number, list, counters and every table byte");
    counted(bursts, "bursts");
}

/// Each list too short or too long by one, or by one datagram's part.
#[test]
fn lists_that_differ() {
    let mut random = Random::new(common::seed());
    let mut refused = 0;
    for count in [1, 2, 5, 31, 32, 33] {
        let mut calls = Calls::new(random.number(), 64, true);
        let mut memory = table_bytes(&sound_table(&mut calls, 3));
        let mut whole = Burst::default();
        datagrams(&mut calls, &memory, count).iter().for_each(|call| push(&mut whole, call));
        let mut wrong: Vec<(Burst, usize)> = vec![(whole.clone(), count - 1), (whole.clone(), count + 1)];
        type Change = fn(&mut Burst);
        let changes: [Change; 16] = [
            |b| b.buffer.push(0),
            |b| {
                b.buffer.pop();
            },
            |b| b.lengths.push(0),
            |b| {
                b.lengths.pop();
            },
            |b| b.lengths[0] += 1,
            |b| b.signers.push(0),
            |b| {
                b.signers.pop();
            },
            |b| b.signers.extend([0; 64]),
            |b| b.addresses.push(0),
            |b| {
                b.addresses.pop();
            },
            |b| b.addresses.extend([0; 17]),
            |b| b.ports.push(0),
            |b| {
                b.ports.pop();
            },
            |b| b.millis.push(MonotonicMillis(0)),
            |b| {
                b.millis.pop();
            },
            |b| b.unix.push(UnixSeconds(0)),
        ];
        for change in changes {
            let mut burst = whole.clone();
            change(&mut burst);
            wrong.push((burst, count));
        }
        let mut burst = whole.clone();
        burst.unix.pop();
        wrong.push((burst, count));
        for (burst, room) in wrong {
            assert_eq!(compare(&mut memory, &burst, room).0, 28);
            refused += 1;
        }
        assert_eq!(compare(&mut memory, &whole, count).0, if count <= MOST { 0 } else { 28 });
    }
    counted(refused, "bursts whose lists differ are refused with 28");
}

/// Lengths that sum to the buffer only in 64 bits.
#[test]
fn wrapped_sums() {
    let half = 1 << 63;
    for lengths in [
        vec![half, half, 5],
        vec![5, half, half],
        vec![usize::MAX, 6],
        vec![usize::MAX, 1, 5],
        vec![half, half, half, half, 5],
        vec![usize::MAX],
        vec![6],
        vec![4],
    ] {
        let count = lengths.len();
        let mut burst = Burst { buffer: vec![0; 5], lengths, ..Burst::default() };
        (burst.signers, burst.addresses) = (vec![1; 64 * count], vec![4; 17 * count]);
        (burst.ports, burst.millis, burst.unix) =
            (vec![1; count], vec![MonotonicMillis(1); count], vec![UnixSeconds(1); count]);
        let mut memory = Table::new(&[1; 64], 1).unwrap().into_bytes();
        assert_eq!(compare(&mut memory, &burst, count), (28, vec![BEFORE; count]));
    }
}

/// No datagrams; 32 of length 0; keys of zeros; addresses of wrong lengths; clocks that fall.
#[test]
fn edges() {
    let mut memory = Table::new(&[1; 64], 1).unwrap().into_bytes();
    assert_eq!(compare(&mut memory, &Burst::default(), 0), (0, vec![]));
    assert_eq!(compare(&mut memory, &Burst::default(), 1), (28, vec![BEFORE]));
    let mut empty = Burst::default();
    for _ in 0..MOST {
        empty.push(MonotonicMillis(1), UnixSeconds(1), &[1; 4], 1, &[2; 64], &[]);
    }
    assert_eq!(compare(&mut memory, &empty, MOST), (0, vec![3; MOST]));
    empty.push(MonotonicMillis(1), UnixSeconds(1), &[1; 4], 1, &[2; 64], &[]);
    assert_eq!(compare(&mut memory, &empty, MOST + 1), (28, vec![BEFORE; MOST + 1]));

    // a good ping, by the reference's writer
    let mut random = Random::new(common::seed());
    let good = reference::generator::datagrams::good(&mut random, 1, 9, &[]);
    let mut burst = Burst::default();
    let key = random.bytes(64);
    for (now, address, signer) in [
        (5, &[1; 4][..], &key[..]),
        (5, &[1; 4][..], &[0; 64][..]),
        (5, &[1; 7][..], &key[..]),
        (5, &[1; 200][..], &key[..]),
        (5, &[][..], &key[..]),
        (4, &[1; 4][..], &key[..]),
        (6, &[1; 16][..], &key[..]),
        (5, &[1; 4][..], &key[..]),
        (6, &[1; 4][..], &key[..]),
    ] {
        burst.push(MonotonicMillis(now), UnixSeconds(9), address, 1, signer, &good);
    }
    let mut memory = Table::new(&[1; 64], 256).unwrap().into_bytes();
    assert_eq!(compare(&mut memory, &burst, 9), (0, vec![0, 5, 6, 6, 6, 2, 0, 2, 0]));
}

/// Bytes that are no sound table: a whole burst gives each datagram its own number, one that isn't 28.
#[test]
fn unsound_memory() {
    let total = common::calls(2_000);
    let mut random = Random::new(common::seed());
    let (mut made, mut ones) = (0, 0);
    let mut kinds = KINDS.into_iter().cycle();
    while made < total {
        let buckets = *random.pick(&[1, 2, 3, 16]);
        let mut calls = Calls::new(random.number(), 128, true);
        let table = sound_table(&mut calls, buckets);
        let sound = table_bytes(&table);
        let count = random.between(1, 32) as usize;
        let mut burst = Burst::default();
        datagrams(&mut calls, &sound, count).iter().for_each(|call| push(&mut burst, call));
        let (kind, slot) = (kinds.next().unwrap(), random.below(buckets as usize));
        let mut memory = sound.clone();
        if let Some(Store { at, bytes }) = damage(&mut calls.random, kind, &table, slot) {
            memory[at..at + bytes.len()].copy_from_slice(&bytes);
        }
        if random.chance(20) {
            memory.truncate(random.below(sound.len()));
        }
        let (number, numbers) = compare(&mut memory, &burst, count);
        assert_eq!(number, 0);
        ones += numbers.iter().filter(|number| **number == 1).count();
        burst.ports.push(0);
        assert_eq!(compare(&mut memory, &burst, count).0, 28);
        made += count;
    }
    assert!(ones > 0 || total < 2_000);
    counted(made, "datagrams in bursts on unsound memory agree");
    counted(ones, "of them answer 1");
}
