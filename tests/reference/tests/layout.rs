//! The table's bytes: docs/LAYOUT.md's figures by hand; sound bytes are read back as their table, damaged
//! ones are refused.

use reference::bucket::{Entry, PingState};
use reference::calls::Call;
use reference::generator::calls::Calls;
use reference::generator::damage::{damage, KINDS};
use reference::generator::tables::sound_table;
use reference::keccak::keccak256;
use reference::layout::{init, read, run, size, table_bytes};
use reference::packet::Endpoint;
use reference::table::{Counters, Table};

#[test]
fn sizes() {
    assert_eq!((size(0), size(1), size(16), size(256)), (512, 3374, 46_304, 733_184));
}

#[test]
fn one_entry_byte_by_byte() {
    // a key in bucket 255: the highest bits of the hashes differ
    let own = [1; 64];
    let far = |byte: &u8| (keccak256(&[*byte; 64])[0] ^ keccak256(&own)[0]) & 0x80 != 0;
    let name = (2..=255).find(far).unwrap();
    let mut table = Table::init(2, &own).unwrap();
    table.clock = 0x0102_0304_0506_0708;
    table.buckets[1].entries.push_back(Entry {
        key: [name; 64],
        id: keccak256(&[name; 64]),
        endpoint: Endpoint { address: vec![192, 0, 2, 7], udp: 0x1122, tcp: 0x3344 },
        last_seen: 5,
        proof: Some(0),
        ping: PingState::Out(6),
        ping_hash: [0xaa; 32],
    });
    assert!(table.is_sound());

    let mut bytes = vec![0; 512 + 2 * 2862];
    bytes[..32].copy_from_slice(&keccak256(&own));
    bytes[32..40].copy_from_slice(&[1, 2, 3, 4, 5, 6, 7, 8]);
    bytes[41] = 2;
    let bucket = 512 + 2862; // slot 1
    bytes[bucket] = 1;
    let entry = &mut bytes[bucket + 2..bucket + 145];
    entry[..64].fill(name);
    entry[64..69].copy_from_slice(&[4, 192, 0, 2, 7]);
    entry[81..85].copy_from_slice(&[0x11, 0x22, 0x33, 0x44]);
    entry[92] = 5;
    entry[93] = 1;
    entry[102] = 1;
    entry[110] = 6;
    entry[111..].fill(0xaa);
    assert_eq!(table_bytes(&table), bytes);
    assert_eq!(read(&bytes), Some(table));
}

#[test]
fn a_fresh_table_is_its_header_and_zeros() {
    let mut memory = vec![0xee; size(3)];
    assert_eq!(init(&mut memory, 0, &[1; 64]), 1);
    assert_eq!(init(&mut memory, 2, &[1; 64]), 1);
    assert_eq!(init(&mut memory, 2, &[1; 63]), 1);
    assert_eq!(init(&mut memory, 3, &[1; 63]), 5);
    assert!(memory.iter().all(|byte| *byte == 0xee));
    assert_eq!(init(&mut memory, 3, &[1; 64]), 0);
    assert_eq!(memory[..32], keccak256(&[1; 64]));
    assert_eq!(memory[32..42], [0, 0, 0, 0, 0, 0, 0, 0, 0, 3]);
    assert!(memory[42..].iter().all(|byte| *byte == 0));
}

#[test]
fn sound_bytes_are_read_back_and_damaged_ones_refused() {
    let mut tried = [0; KINDS.len()];
    for seed in 0..40 {
        let mut calls = Calls::new(seed, 256, true);
        let table = sound_table(&mut calls, [1, 3, 16, 256][seed as usize % 4]);
        let bytes = table_bytes(&table);
        assert_eq!(read(&bytes).as_ref(), Some(&table));
        for (index, kind) in KINDS.into_iter().enumerate() {
            for slot in 0..table.buckets.len() {
                let Some(store) = damage(&mut calls.random, kind, &table, slot) else { continue };
                let mut memory = bytes.clone();
                memory[store.at..store.at + store.bytes.len()].copy_from_slice(&store.bytes);
                assert_eq!(read(&memory), None, "{kind:?} in slot {slot}, seed {seed}");
                // a call that touches it is refused, and nothing changes
                let before = memory.clone();
                let mut counters = Counters::default();
                let reply = run(&mut memory, &mut counters, &Call::Sweep { now: table.clock });
                assert_eq!((reply.number(), counters.0[1]), (1, 1), "{kind:?}");
                assert_eq!(memory, before);
                tried[index] += 1;
                if table.buckets.len() > 16 {
                    break;
                }
            }
        }
    }
    for (kind, tried) in KINDS.iter().zip(tried) {
        assert!(tried > 0, "{kind:?}");
    }
}

#[test]
fn calls_on_bytes_are_calls_on_the_table() {
    for seed in 0..8 {
        let mut calls = Calls::new(seed, 256, true);
        let mut table = sound_table(&mut calls, [1, 2, 3, 16][seed as usize % 4]);
        let mut memory = table_bytes(&table);
        let (mut counters, mut counted) = (Counters::default(), Counters::default());
        for _ in 0..150 {
            let call = calls.next(Some(&table));
            let reply = call.run(&mut table, &mut counters);
            assert_eq!(run(&mut memory, &mut counted, &call), reply);
            assert_eq!(memory, table_bytes(&table));
            assert_eq!(counted, counters);
        }
    }
}
