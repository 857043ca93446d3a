//! Bytes that make a sound table unsound: each kind breaks one sentence of docs/LAYOUT.md.

use super::random::Random;
use crate::bucket::{range, Bucket, Entry, PingState, ENTRIES, OF_A_RANGE, REPLACEMENTS};
use crate::keccak::keccak256;
use crate::layout::{size, ENTRY, LINE, SEATS};
use crate::table::Table;

/// Bytes to store at an index of the memory.
pub struct Store {
    pub at: usize,
    pub bytes: Vec<u8>,
}

/// The kinds, and all of them in a list.
macro_rules! kinds {
    ($($kind:ident,)*) => {
        #[derive(Clone, Copy, Debug, PartialEq, Eq, PartialOrd, Ord)]
        pub enum Kind {
            $($kind,)*
        }

        pub const KINDS: [Kind; [$(Kind::$kind,)*].len()] = [$(Kind::$kind,)*];
    };
}

kinds! {
    NoBuckets,
    TooManyBuckets,
    OneBucketMore,
    OneBucketLess,
    HeaderByte,
    ClockBeforeATime,
    AnotherOwnHash,
    SeventeenEntries,
    FiveReplacements,
    OneEntryMore,
    OneEntryLess,
    OneReplacementMore,
    OneReplacementLess,
    FreeEntryByte,
    FreeReplacementByte,
    AddressLength,
    ByteBehindAddress,
    ShortenedAddress,
    ProofFlag,
    TimeOfNoProof,
    PingFlag,
    TimeOfQuietPing,
    SeenAfterClock,
    ProofAfterClock,
    PingAfterClock,
    UnprovedEntry,
    QuietUnprovedReplacement,
    ProvedReplacementWithFreeEntry,
    ProvedReplacementOfARangeAtOne,
    ThreeOfARange,
    KeyTwice,
    KeyOfAnotherBucket,
}

use Kind::*;

/// An entry or a replacement of the bucket that is damaged.
struct Place<'a> {
    entry: &'a Entry,
    seated: bool,
    at: usize,
}

fn places(bucket: &Bucket, at: usize) -> Vec<Place<'_>> {
    let line =
        |start: usize, seated: bool| move |(index, entry)| Place { entry, seated, at: start + index * ENTRY };
    let seats = bucket.entries.iter().enumerate().map(line(at + SEATS, true));
    let waiting = bucket.replacements.iter().enumerate().map(line(at + LINE, false));
    seats.chain(waiting).collect()
}

fn same_range(one: &Entry, two: &Entry) -> bool {
    let [one, two] = [one, two].map(|entry| range(&entry.endpoint.address));
    one.is_some() && one == two
}

fn latest(bucket: &Bucket) -> Option<u64> {
    let times = |entry: &Entry| {
        let since = match entry.ping {
            PingState::Quiet => None,
            PingState::Out(since) => Some(since),
        };
        [Some(entry.last_seen), entry.proof, since]
    };
    bucket.entries.iter().chain(&bucket.replacements).flat_map(times).flatten().max()
}

/// What damages the bucket in a slot of a sound table; None where it has nothing of the kind.
pub fn damage(random: &mut Random, kind: Kind, table: &Table, slot: usize) -> Option<Store> {
    let bucket = &table.buckets[slot];
    let at = size(slot);
    let (seats, waiting) = (bucket.entries.len(), bucket.replacements.len());
    let buckets = table.buckets.len() as u16;
    let places = places(bucket, at);
    let byte = random.between(1, 255) as u8;
    let store = |at: usize, bytes: &[u8]| Some(Store { at, bytes: bytes.to_vec() });
    let late = table.clock.checked_add(1).map(u64::to_be_bytes);
    let place = |random: &mut Random, test: &dyn Fn(&Place) -> bool| {
        let fitting: Vec<&Place> = places.iter().filter(|place| test(place)).collect();
        if fitting.is_empty() {
            return None;
        }
        let place = random.pick(&fitting);
        Some((place.at, place.entry))
    };
    match kind {
        NoBuckets => store(40, &[0, 0]),
        TooManyBuckets => store(40, &[1, 1]),
        OneBucketMore => store(40, &(buckets + 1).to_be_bytes()),
        OneBucketLess => store(40, &(buckets - 1).to_be_bytes()),
        HeaderByte => store(42 + random.below(470), &[byte]),
        ClockBeforeATime => store(32, &latest(bucket)?.checked_sub(1)?.to_be_bytes()),
        AnotherOwnHash => (seats > 0).then_some(()).and(store(0, &[table.own[0] ^ 0x80])),
        SeventeenEntries => store(at, &[17]),
        FiveReplacements => store(at + 1, &[5]),
        OneEntryMore => (seats < ENTRIES).then_some(()).and(store(at, &[seats as u8 + 1])),
        OneEntryLess => store(at, &[seats.checked_sub(1)? as u8]),
        OneReplacementMore => (waiting < REPLACEMENTS).then_some(()).and(store(at + 1, &[waiting as u8 + 1])),
        OneReplacementLess => store(at + 1, &[waiting.checked_sub(1)? as u8]),
        FreeEntryByte => {
            let free = (ENTRIES - seats) * ENTRY;
            (free > 0).then(|| Store { at: at + LINE - 1 - random.below(free), bytes: vec![byte] })
        }
        FreeReplacementByte => {
            let free = (REPLACEMENTS - waiting) * ENTRY;
            (free > 0).then(|| Store { at: size(slot + 1) - 1 - random.below(free), bytes: vec![byte] })
        }
        AddressLength => {
            let (at, _) = place(random, &|_| true)?;
            store(at + 64, &[*random.pick(&[0, 3, 5, 15, 17, 32, 255])])
        }
        ByteBehindAddress => {
            let (at, _) = place(random, &|place| place.entry.endpoint.address.len() == 4)?;
            store(at + 69 + random.below(12), &[byte])
        }
        ShortenedAddress => {
            let long = |place: &Place| {
                let address = &place.entry.endpoint.address;
                address.len() == 16 && address[4..].iter().any(|byte| *byte != 0)
            };
            store(place(random, &long)?.0 + 64, &[4])
        }
        ProofFlag => store(place(random, &|place| place.entry.proof.is_some())?.0 + 93, &[byte.max(2)]),
        TimeOfNoProof => {
            // of a replacement that may stay unproved, so that only the time is wrong
            let (at, _) = place(random, &|place| place.entry.proof.is_none())?;
            store(at + 101, &[1])
        }
        PingFlag => store(place(random, &|_| true)?.0 + 102, &[byte.max(2)]),
        TimeOfQuietPing => {
            let quiet = |place: &Place| place.entry.ping == PingState::Quiet;
            store(place(random, &quiet)?.0 + 103 + random.below(8), &[byte])
        }
        SeenAfterClock => store(place(random, &|_| true)?.0 + 85, &late?),
        ProofAfterClock => store(place(random, &|place| place.entry.proof.is_some())?.0 + 94, &late?),
        PingAfterClock => {
            store(place(random, &|place| place.entry.ping != PingState::Quiet)?.0 + 103, &late?)
        }
        UnprovedEntry => {
            // with a ping out, as an unproved replacement may be
            let (at, _) = place(random, &|place| place.seated)?;
            let since = table.clock.to_be_bytes();
            store(at + 93, &[&[0; 9][..], &[1], &since].concat())
        }
        QuietUnprovedReplacement => store(place(random, &|place| !place.seated)?.0 + 93, &[0; 18]),
        ProvedReplacementWithFreeEntry => {
            let free = |place: &Place| bucket.has_seat_for(&place.entry.endpoint.address);
            let (at, _) = place(random, &|place| !place.seated && free(place))?;
            store(at + 93, &[&[1][..], &table.clock.to_be_bytes()].concat())
        }
        ProvedReplacementOfARangeAtOne => {
            // beside free seats it waits for its range: one seat of that goes to another
            let (_, entry) =
                place(random, &|place| !place.seated && place.entry.proof.is_some() && seats < ENTRIES)?;
            let (at, seat) = place(random, &|place| place.seated && same_range(place.entry, entry))?;
            store(at + 67, &[seat.endpoint.address[2] ^ byte])
        }
        ThreeOfARange => {
            // the range of a seat that has two goes to a seat of another
            let (_, entry) = place(random, &|place| {
                place.seated && bucket.of_range(&place.entry.endpoint.address) == OF_A_RANGE
            })?;
            let other = |place: &Place| {
                place.seated && place.entry.endpoint.address.len() == 4 && !same_range(place.entry, entry)
            };
            store(place(random, &other)?.0 + 65, &entry.endpoint.address[..3])
        }
        KeyTwice => {
            let (at, entry) = place(random, &|_| true)?;
            let (_, other) = place(random, &|place| place.entry.key != entry.key)?;
            store(at, &other.key)
        }
        KeyOfAnotherBucket => {
            let (at, _) = place(random, &|_| true)?;
            let stranger = (0..64)
                .map(|_| random.array::<64>())
                .find(|key| table.index(&keccak256(key)) != Some(slot))?;
            store(at, &stranger)
        }
    }
}
