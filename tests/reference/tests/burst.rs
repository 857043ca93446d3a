//! A burst against the request's sentences, by hand.

use reference::burst::Burst;
use reference::calls::Call;
use reference::generator::datagrams;
use reference::generator::random::Random;
use reference::layout::{size, table_bytes};
use reference::table::{Counters, Table};

fn call(now: u64, address: &[u8], signer: &[u8], datagram: &[u8]) -> Call {
    let (address, signer, datagram) = (address.to_vec(), signer.to_vec(), datagram.to_vec());
    Call::Datagram { now, unix: 9, address, port: 1, signer, datagram }
}

#[test]
fn whole() {
    let mut burst = Burst::default();
    assert!(burst.is_whole(0) && !burst.is_whole(1));
    for count in 1..=34 {
        burst.push(&call(1, &[1; 4], &[2; 64], &[3; 5]));
        assert_eq!(burst.is_whole(count), count <= 32);
        assert!(!burst.is_whole(count - 1) && !burst.is_whole(count + 1));
    }
    let mut burst = Burst::default();
    for _ in 0..3 {
        burst.push(&call(1, &[1; 4], &[2; 64], &[]));
    }
    burst.buffer = vec![0; 5];
    for (lengths, whole) in
        [([1 << 63, 1 << 63, 5], false), ([2, 2, 1], true), ([2, 2, 2], false), ([2, 1, 1], false)]
    {
        burst.lengths = lengths.to_vec();
        assert_eq!(burst.is_whole(3), whole, "{lengths:?}");
    }
}

#[test]
fn numbers_table_and_counters() {
    let mut random = Random::new(1);
    let (key, good) = (random.bytes(64), datagrams::good(&mut random, 1, 9, &[]));
    let mut burst = Burst::default();
    for (now, address, signer) in [
        (5, &[1; 4][..], &key[..]),
        (4, &[1; 4][..], &key[..]),
        (5, &[1; 4][..], &[0; 64][..]),
        (5, &[1; 200][..], &key[..]),
        (6, &[1; 16][..], &key[..]),
    ] {
        burst.push(&call(now, address, signer, &good));
    }
    let mut memory = table_bytes(&Table::init(256, &[1; 64]).unwrap());
    let (before, mut counters, mut numbers) = (memory.clone(), Counters::default(), [7; 5]);
    assert_eq!(burst.run(&mut memory, &mut counters, &mut numbers[..4]), 28);
    assert!(memory == before && counters == Counters::default() && numbers == [7; 5]);
    assert_eq!(burst.run(&mut memory, &mut counters, &mut numbers), 0);
    assert_eq!(numbers, [0, 2, 5, 6, 0]);
    assert_eq!((counters.0[0], counters.0[2], counters.0[5], counters.0[6]), (2, 1, 1, 1));
    assert_eq!(memory[39], 6, "the clock of the last accepted one");
    // no table: each has its own 1
    assert_eq!(burst.run(&mut memory[..size(1)], &mut counters, &mut numbers), 0);
    assert_eq!((numbers, counters.0[1]), ([1; 5], 5));
}
