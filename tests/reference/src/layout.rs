//! The table's bytes, written from docs/LAYOUT.md, and the calls on a memory of bytes. Number 1 comes from
//! here: "table memory of the wrong length, bucket count outside 1 to 256, or header or a touched bucket
//! not sound".

use crate::bucket::{Bucket, Entry, PingState, ENTRIES, REPLACEMENTS};
use crate::calls::{Call, Reply};
use crate::keccak::keccak256;
use crate::packet::{Endpoint, Node};
use crate::table::{Counters, Listed, Table};
use crate::Number;

pub const HEADER: usize = 512;
pub const BUCKET: usize = 2862;
pub const ENTRY: usize = 143;
/// Where a bucket's entries and replacements begin.
pub const SEATS: usize = 2;
pub const LINE: usize = 2290;

/// The length of a table of so many buckets; and where the bucket in this slot begins.
pub fn size(buckets: usize) -> usize {
    HEADER + buckets * BUCKET
}

// ---------------------------------------------------------------------------------------- writing

/// A time that may be missing.
fn stamp(time: Option<u64>) -> Vec<u8> {
    let mut bytes = vec![u8::from(time.is_some())];
    bytes.extend(time.unwrap_or(0).to_be_bytes());
    bytes
}

fn entry_bytes(entry: &Entry) -> Vec<u8> {
    let since = match entry.ping {
        PingState::Quiet => None,
        PingState::Out(since) => Some(since),
    };
    let mut bytes = entry.key.to_vec();
    bytes.push(entry.endpoint.address.len() as u8);
    bytes.extend(&entry.endpoint.address);
    bytes.resize(81, 0);
    bytes.extend(entry.endpoint.udp.to_be_bytes());
    bytes.extend(entry.endpoint.tcp.to_be_bytes());
    bytes.extend(entry.last_seen.to_be_bytes());
    bytes.extend(stamp(entry.proof));
    bytes.extend(stamp(since));
    bytes.extend(entry.ping_hash);
    bytes
}

pub fn bucket_bytes(bucket: &Bucket) -> Vec<u8> {
    let mut bytes = vec![bucket.entries.len() as u8, bucket.replacements.len() as u8];
    bytes.extend(bucket.entries.iter().flat_map(entry_bytes));
    bytes.resize(LINE, 0);
    bytes.extend(bucket.replacements.iter().flat_map(entry_bytes));
    bytes.resize(BUCKET, 0);
    bytes
}

pub fn header_bytes(table: &Table) -> Vec<u8> {
    let mut bytes = table.own.to_vec();
    bytes.extend(table.clock.to_be_bytes());
    bytes.extend((table.buckets.len() as u16).to_be_bytes());
    bytes.resize(HEADER, 0);
    bytes
}

pub fn table_bytes(table: &Table) -> Vec<u8> {
    let mut bytes = header_bytes(table);
    bytes.extend(table.buckets.iter().flat_map(bucket_bytes));
    bytes
}

// ---------------------------------------------------------------------------------------- reading

fn number(bytes: &[u8]) -> u64 {
    bytes.iter().fold(0, |number, byte| number << 8 | u64::from(*byte))
}

/// The time, if there is one; None if the first byte is no flag.
fn read_stamp(bytes: &[u8]) -> Option<Option<u64>> {
    match bytes[0] {
        0 => Some(None),
        1 => Some(Some(number(&bytes[1..9]))),
        _ => None,
    }
}

fn read_entry(bytes: &[u8]) -> Option<Entry> {
    let length = usize::from(bytes[64]);
    if !matches!(length, 4 | 16) {
        return None;
    }
    let endpoint = Endpoint {
        address: bytes[65..65 + length].to_vec(),
        udp: number(&bytes[81..83]) as u16,
        tcp: number(&bytes[83..85]) as u16,
    };
    Some(Entry {
        key: bytes[..64].try_into().ok()?,
        id: keccak256(&bytes[..64]),
        endpoint,
        last_seen: number(&bytes[85..93]),
        proof: read_stamp(&bytes[93..102])?,
        ping: read_stamp(&bytes[102..111])?.map_or(PingState::Quiet, PingState::Out),
        ping_hash: bytes[111..ENTRY].try_into().ok()?,
    })
}

/// The bucket that has these bytes. "one byte form for each table": what is read is written again and
/// compared.
fn read_bucket(bytes: &[u8]) -> Option<Bucket> {
    let (seats, line) = (usize::from(bytes[0]), usize::from(bytes[1]));
    if seats > ENTRIES || line > REPLACEMENTS {
        return None;
    }
    let entries = |start: usize, count: usize| -> Option<_> {
        bytes[start..].chunks(ENTRY).take(count).map(read_entry).collect()
    };
    let bucket = Bucket { entries: entries(SEATS, seats)?, replacements: entries(LINE, line)? };
    (bucket_bytes(&bucket) == bytes).then_some(bucket)
}

/// The header's table with empty buckets.
fn read_header(memory: &[u8]) -> Option<Table> {
    let header = memory.get(..HEADER)?;
    let count = number(&header[40..42]) as usize;
    if !(1..=256).contains(&count) || memory.len() != size(count) {
        return None;
    }
    let own = header[..32].try_into().ok()?;
    let table = Table { own, clock: number(&header[32..40]), buckets: vec![Bucket::default(); count] };
    (header_bytes(&table) == header).then_some(table)
}

/// The table of a memory with the buckets in these slots, the others left empty; None where the header or
/// one of them isn't sound.
fn read_slots(memory: &[u8], slots: &[usize]) -> Option<Table> {
    let mut table = read_header(memory)?;
    for slot in slots {
        table.buckets[*slot] = read_bucket(&memory[size(*slot)..size(*slot + 1)])?;
    }
    table.is_sound().then_some(table)
}

/// The table of a memory, if all of it is sound.
pub fn read(memory: &[u8]) -> Option<Table> {
    let count = read_header(memory)?.buckets.len();
    read_slots(memory, &(0..count).collect::<Vec<_>>())
}

// --------------------------------------------------------------------------------- calls on bytes

/// The slots of the buckets that a call touches: "where the key is 64 bytes, 7 doesn't apply and its bucket
/// is kept; a sweep and a closest call touch all".
fn touched(table: &Table, call: &Call) -> Vec<usize> {
    match call {
        Call::Datagram { signer: key, .. } | Call::PingSent { key, .. } => {
            let slot = if key.len() == 64 { table.index(&keccak256(key)) } else { None };
            slot.into_iter().collect()
        }
        Call::Sweep { .. } | Call::Closest { .. } => (0..table.buckets.len()).collect(),
    }
}

/// The call that makes a fresh table: "gives only 1 (length or B) and 5".
pub fn init(memory: &mut [u8], buckets: u64, own_key: &[u8]) -> Number {
    match Table::init(buckets, own_key) {
        Err(1) => 1,
        _ if memory.len() != size(buckets as usize) => 1,
        Err(number) => number,
        Ok(table) => {
            memory.copy_from_slice(&table_bytes(&table));
            0
        }
    }
}

/// The header and the buckets that a call touches, if they are sound.
pub fn touched_table(memory: &[u8], call: &Call) -> Option<Table> {
    read_slots(memory, &touched(&read_header(memory)?, call))
}

/// A call of any kind. "A refusal returns its number alone and changes nothing lent but the tally."
pub fn run(memory: &mut [u8], counters: &mut Counters, call: &Call) -> Reply {
    let Some(mut table) = touched_table(memory, call) else {
        if !matches!(call, Call::Closest { .. }) {
            counters.raise(1);
        }
        return call.refused(1);
    };
    let slots = touched(&table, call);
    let reply = call.run(&mut table, counters);
    if reply.number() == 0 {
        memory[..HEADER].copy_from_slice(&header_bytes(&table));
        for slot in slots {
            memory[size(slot)..size(slot + 1)].copy_from_slice(&bucket_bytes(&table.buckets[slot]));
        }
    }
    reply
}

/// A closest call on a lent list. It "takes no clock, changes no table byte" and isn't counted.
pub fn closest(memory: &[u8], list: &mut [Node], target: &[u8]) -> Result<Listed, Number> {
    read(memory).ok_or(1)?.closest(list, target)
}
