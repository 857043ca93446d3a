//! Calls at readings of a 32-bit counter (C-20), here and in the reference: the same answers, counters and table bytes; and the same as the
//! 64-bit calls at the clocks that the readings give. COGHAMMER_CALLS says how many calls (20,000), COGHAMMER_SEED from which seed.

mod common;

use std::collections::BTreeMap;

use coghammer::{Accepted, Burst, Counters, LowMillis, MonotonicMillis, Number, Table, UnixSeconds};
use common::{accepted, counted, told};
use reference::calls::{Call, Reply};
use reference::generator::calls::Calls;
use reference::generator::damage::{damage, Store, KINDS};
use reference::generator::datagrams;
use reference::generator::random::Random;
use reference::generator::tables::sound_table;
use reference::keccak::keccak256;
use reference::layout::{self, table_bytes};
use reference::low::{self, widen};
use reference::packet::Endpoint;
use reference::{burst, table};

/// A table with its counters.
#[derive(Clone)]
struct Lent {
    table: Table,
    counters: Counters,
}

impl Lent {
    fn of(bytes: Vec<u8>) -> Lent {
        Lent { table: Table::from_bytes(bytes), counters: Counters::default() }
    }

    /// The answer to a call at a reading, as the reference says it; of an accepted datagram its outcome.
    fn low(&mut self, call: &Call, reading: u32) -> Result<Option<Accepted>, Number> {
        let (Lent { table, counters }, reading) = (self, LowMillis(reading));
        match call {
            Call::Datagram { unix, address, port, signer, datagram, .. } => table
                .datagram_low(counters, reading, UnixSeconds(*unix), address, *port, signer, datagram)
                .map(Some),
            Call::PingSent { key, endpoint: Endpoint { address, udp, tcp }, hash, .. } => {
                table.ping_sent_low(counters, reading, key, address, *udp, *tcp, hash).map(|()| None)
            }
            Call::Sweep { .. } => table.sweep_low(counters, reading).map(|()| None),
            Call::Closest { .. } => unreachable!("it takes no clock"),
        }
    }

    /// The same call at a full clock.
    fn wide(&mut self, call: &Call) -> Result<Option<Accepted>, Number> {
        let Lent { table, counters } = self;
        match call {
            Call::Datagram { now, unix, address, port, signer, datagram } => {
                let (now, unix) = (MonotonicMillis(*now), UnixSeconds(*unix));
                table.datagram(counters, now, unix, address, *port, signer, datagram).map(Some)
            }
            Call::PingSent { now, key, endpoint: Endpoint { address, udp, tcp }, hash } => table
                .ping_sent(counters, MonotonicMillis(*now), key, address, *udp, *tcp, hash)
                .map(|()| None),
            Call::Sweep { now } => table.sweep(counters, MonotonicMillis(*now)).map(|()| None),
            Call::Closest { .. } => unreachable!("it takes no clock"),
        }
    }
}

fn as_told(reply: &Reply) -> Result<Option<Accepted>, u8> {
    match reply {
        Reply::Datagram(answer) => {
            answer.as_ref().map(|answer| Some(accepted(answer))).map_err(|number| *number)
        }
        Reply::PingSent(answer) | Reply::Sweep(answer) => (*answer).map(|()| None),
        Reply::Closest(_) => unreachable!("it takes no clock"),
    }
}

/// A call at a reading, here and in the reference, on the same bytes; and here at the clock that the reading gives.
fn compare(
    ours: &mut Lent,
    theirs: &mut Vec<u8>,
    their_counters: &mut table::Counters,
    call: &Call,
    reading: u32,
) -> u8 {
    let clock = layout::touched_table(theirs, call).map(|table| table.clock);
    let mut wide = ours.clone();
    let reply = low::run(theirs, their_counters, call, reading);
    let answer = ours.low(call, reading);
    assert_eq!(told(answer), as_told(&reply), "{call:?} at {reading}");
    assert_eq!(ours.counters.counts, their_counters.0, "counters after {call:?} at {reading}");
    assert!(ours.table.bytes() == *theirs, "bytes after {call:?} at {reading}");
    match clock.map(|clock| widen(clock, reading)) {
        Some(Some(now)) => {
            assert_eq!(wide.wide(&call.at(now)), answer, "{call:?} at {now}");
            assert_eq!(wide.counters, ours.counters);
            assert!(wide.table == ours.table);
        }
        Some(None) => assert_eq!(reply.number(), 2, "a refused reading"),
        None => assert_eq!(reply.number(), 1, "1 goes first"),
    }
    reply.number()
}

/// A reading for a table's clock: a step ahead, often one at an edge.
fn reading(random: &mut Random, clock: u64) -> u32 {
    let step = match random.below(12) {
        0 => *random.pick(&[1 << 31, (1 << 31) - 1, (1 << 31) + 1, u32::MAX, u32::MAX - 1]),
        1 => random.number() as u32,
        2 => 0,
        3 => *random.pick(&[499, 500, 501, 43_200_000, 43_200_001]),
        4 => 1_500_000_000,
        _ => random.below(400) as u32,
    };
    (clock as u32).wrapping_add(step)
}

/// A table's clock around 0, 2^31, 2^32 and 2^64.
fn start(random: &mut Random) -> u64 {
    let around = *random.pick(&[0, 1 << 31, 1 << 32, 3 << 32, u64::MAX]);
    let near = random.between(0, 2_000);
    if random.chance(50) {
        around.saturating_sub(near)
    } else {
        around.saturating_add(near)
    }
}

#[test]
fn sequences_at_readings() {
    let total = common::calls(20_000);
    let (mut made, mut rollovers, mut reached) = (0, 0, BTreeMap::<String, usize>::new());
    for seed in common::seed().. {
        if made >= total {
            break;
        }
        let mut calls = Calls::new(seed, 128, false);
        let mut theirs = sound_table(&mut calls, [1, 2, 3, 16][seed as usize % 4]);
        // all times of a sound table lie below its clock, so it may be set later
        theirs.clock = theirs.clock.max(start(&mut calls.random));
        let mut memory = table_bytes(&theirs);
        let (mut ours, mut their_counters) = (Lent::of(memory.clone()), table::Counters::default());
        for _ in 0..200 {
            let table = layout::read(&memory).expect("a sound table");
            let call = calls.next(Some(&table));
            // often where the call stands of itself
            let reading = match &call {
                Call::Datagram { now, .. } | Call::PingSent { now, .. } | Call::Sweep { now }
                    if calls.random.chance(60) =>
                {
                    *now as u32
                }
                _ => reading(&mut calls.random, table.clock),
            };
            assert_eq!(
                told(ours.table.full_clock(LowMillis(reading))).ok().map(|clock| clock.0),
                widen(table.clock, reading)
            );
            let number = compare(&mut ours, &mut memory, &mut their_counters, &call, reading);
            let after = layout::read(&memory).expect("a sound table").clock;
            rollovers += usize::from(after >> 32 != table.clock >> 32);
            let name = match call {
                Call::Datagram { .. } => "datagram",
                Call::PingSent { .. } => "ping sent",
                _ => "sweep",
            };
            *reached.entry(format!("{name} {number}")).or_default() += 1;
            made += 1;
        }
    }
    assert!(rollovers > 5, "{rollovers} rollovers");
    for wanted in ["datagram 0", "datagram 2", "ping sent 0", "ping sent 2", "sweep 0", "sweep 2"] {
        assert!(reached.contains_key(wanted), "{wanted} was never reached: {reached:?}");
    }
    counted(made, "calls at 32-bit readings agree");
}

/// Unsound bytes: 1 before the front's 2, where the call touches them.
#[test]
fn unsound_bytes_at_readings() {
    let (mut made, mut first) = (0, 0);
    for seed in 0..40 {
        let mut calls = Calls::new(900 + seed, 64, false);
        let table = sound_table(&mut calls, 3);
        for kind in KINDS {
            for slot in 0..3 {
                let Some(Store { at, bytes }) = damage(&mut calls.random, kind, &table, slot) else {
                    continue;
                };
                let mut memory = table_bytes(&table);
                memory[at..at + bytes.len()].copy_from_slice(&bytes);
                let call = calls.next(Some(&table));
                // a reading that is refused, or one that isn't
                let step = *calls.random.pick(&[0, 1, 1 << 31, u32::MAX]);
                let reading = (table.clock as u32).wrapping_add(step);
                let (mut ours, mut counters) = (Lent::of(memory.clone()), table::Counters::default());
                first += usize::from(
                    compare(&mut ours, &mut memory, &mut counters, &call, reading) == 1 && step >= 1 << 31,
                );
                made += 1;
            }
        }
    }
    assert!(first > 50, "1 before 2 only {first} times");
    let mut short = Lent::of(vec![0; 600]);
    assert_eq!(short.table.full_clock(LowMillis(0)), Err(Number(1)));
    assert_eq!(short.table.sweep_low(&mut short.counters, LowMillis(1 << 31)), Err(Number(1)));
    counted(made, "calls at readings on damaged tables agree");
}

#[test]
fn bursts_at_readings() {
    let (mut made, mut reached) = (0, BTreeMap::<u8, usize>::new());
    for seed in 0..60 {
        let mut calls = Calls::new(500 + seed, 64, false);
        let mut table = sound_table(&mut calls, 3);
        table.clock = table.clock.max(start(&mut calls.random));
        let (mut theirs, mut ours) = (table_bytes(&table), Table::from_bytes(table_bytes(&table)));
        let (mut lists, mut low) = (burst::Burst::default(), Burst::<LowMillis>::default());
        let count = calls.random.below(34);
        while lists.lengths.len() < count {
            let call = calls.next(Some(&table));
            let Call::Datagram { unix, address, port, signer, datagram, .. } = &call else { continue };
            let reading = reading(&mut calls.random, table.clock);
            lists.push(&call.at(reading.into()));
            low.push(LowMillis(reading), UnixSeconds(*unix), address, *port, signer, datagram);
        }
        if calls.random.chance(10) {
            lists.millis.pop();
            low.millis.pop();
        }
        let (mut counters, mut their_counters) = (Counters::default(), table::Counters::default());
        let (mut numbers, mut their_numbers) = (vec![Number(0xee); count], vec![0xee; count]);
        let number = told(ours.burst_low(&mut counters, &mut numbers, &low)).err().unwrap_or(0);
        assert_eq!(number, lists.run_low(&mut theirs, &mut their_counters, &mut their_numbers));
        assert_eq!(numbers.iter().map(|number| number.0).collect::<Vec<_>>(), their_numbers);
        assert_eq!(counters.counts, their_counters.0);
        assert!(ours.bytes() == theirs);
        *reached.entry(number).or_default() += 1;
        their_numbers.iter().for_each(|number| *reached.entry(*number).or_default() += 1);
        made += count;
    }
    assert!([0, 2, 28].iter().all(|number| reached.contains_key(number)), "{reached:?}");
    counted(made, "datagrams of bursts at readings agree");
}

// ---- figures by hand

const OWN: [u8; 64] = [0xee; 64];

/// A table with this clock and nothing else.
fn at_clock(clock: u64) -> Lent {
    let mut lent = Lent::of(Table::new(&OWN, 16).unwrap().into_bytes());
    assert_eq!(lent.table.sweep(&mut lent.counters, MonotonicMillis(clock)), Ok(()));
    lent
}

#[test]
fn figures() {
    let full = |clock, reading| at_clock(clock).table.full_clock(LowMillis(reading)).map(|clock| clock.0);
    assert_eq!(full(0, (1 << 31) - 1), Ok((1 << 31) - 1));
    assert_eq!([full(0, 1 << 31), full(0, u32::MAX)], [Err(Number(2)); 2]);
    assert_eq!(full((1 << 32) - 10, 5), Ok((1 << 32) + 5));
    assert_eq!(full((1 << 32) - 10, u32::MAX - 10), Err(Number(2)));
    assert_eq!(full(u64::MAX, u32::MAX), Ok(u64::MAX));
    assert_eq!(full(u64::MAX, 0), Err(Number(2)));
    // d milliseconds after the last accepted call: exact, refused, too low
    let clock = 7_000_000_000;
    for d in [0, 1, (1 << 31) - 1] {
        assert_eq!(full(clock, (clock + d) as u32), Ok(clock + d));
    }
    for d in [1 << 31, (1 << 32) - 1] {
        assert_eq!(full(clock, (clock + d) as u32), Err(Number(2)));
    }
    assert_eq!(full(clock, (clock + (1 << 32) + 3) as u32), Ok(clock + 3));
    // a box that was restarted without its table, or the table without its counter
    assert_eq!(full(0, 3_000_000_000), Err(Number(2)));
}

/// Why demand 3 reads the clocks as each call got them. X is seated; a stranger's ping comes, then X is pinged and a sweep comes 600 later. At
/// readings, leaving out the stranger's packet changes what the later readings give; at the clocks that the calls got, it doesn't.
#[test]
fn a_datagram_left_out() {
    let mut calls = Calls::new(1, 16, false);
    let key = (0u8..)
        .map(|n| [n; 64])
        .find(|key| table::Table::init(16, &OWN).unwrap().index(&keccak256(key)).is_some())
        .unwrap();
    let stranger = (1u8..)
        .map(|n| [n; 64])
        .filter(|other| *other != key)
        .find(|other| table::Table::init(16, &OWN).unwrap().index(&keccak256(other)).is_some())
        .unwrap();
    let endpoint = Endpoint { address: vec![10, 0, 0, 1], udp: 30303, tcp: 30303 };
    let ping = |hash: u8| Call::PingSent {
        now: 0,
        key: key.to_vec(),
        endpoint: endpoint.clone(),
        hash: vec![hash; 32],
    };
    let mut packet = |signer: &[u8; 64], kind: u8| Call::Datagram {
        now: 0,
        unix: 9,
        address: vec![10, 0, 0, 1],
        port: 30303,
        signer: signer.to_vec(),
        datagram: datagrams::good(&mut calls.random, kind, 9, &[1; 32]),
    };
    let run: Vec<(Call, u32)> = vec![
        (ping(1), 100),
        (packet(&key, 2), 200),
        (packet(&stranger, 1), 1_500_000_200),
        (ping(2), 3_000_000_000),
        (Call::Sweep { now: 0 }, 3_000_000_600),
    ];
    let held = |lent: &Lent| lent.table.find(&key).unwrap().is_some();

    let mut whole = at_clock(0);
    let mut clocks = Vec::new();
    for (call, reading) in &run {
        assert!(whole.low(call, *reading).is_ok());
        clocks.push(whole.table.state().unwrap().clock.0);
    }
    assert!(!held(&whole));
    // at the readings, without the stranger: the later ones are refused, and X keeps its seat
    let mut anew = at_clock(0);
    let answers: Vec<bool> = run
        .iter()
        .enumerate()
        .filter(|(i, _)| *i != 2)
        .map(|(_, (call, reading))| anew.low(call, *reading).is_ok())
        .collect();
    assert_eq!(answers, [true, true, false, false]);
    assert!(held(&anew));
    // at the clocks that each call got: X loses it at the same sweep
    let mut as_got = at_clock(0);
    for (i, (call, _)) in run.iter().enumerate().filter(|(i, _)| *i != 2) {
        assert!(as_got.wide(&call.at(clocks[i])).is_ok());
    }
    assert!(!held(&as_got));
}
