//! Cases for the program crates/call_cases (its main.rt has their form), from a seed, with the lines that
//! it must print. These come from this implementation alone.
//!
//!     call_cases SEED COUNT CASES EXPECTED   writes the two files, with about COUNT calls
//!     call_cases --stored DIR                writes DIR/stdin and DIR/stdout, the bounded set that is
//!                                            kept with the program
//!
//! Standard error says how often each answer of each call and each kind of unsound bytes was reached, and
//! last what never was.

use std::collections::BTreeMap;
use std::fmt::Write;
use std::process::ExitCode;

use reference::bucket::{Entry, PingState, PongOutcome, ENTRIES, PING_TIMEOUT, PROOF_LIFETIME};
use reference::calls::{Call, Reply};
use reference::generator::calls::Calls;
use reference::generator::damage::{damage, Kind, Store, KINDS};
use reference::generator::datagrams;
use reference::generator::random::Random;
use reference::generator::tables::sound_table;
use reference::hex;
use reference::keccak::keccak256;
use reference::layout::{self, bucket_bytes, size, ENTRY, LINE, SEATS};
use reference::packet::{Endpoint, Node, Packet};
use reference::table::{Accepted, Counters, Listed, Outcome, Table};

/// Room for 257 buckets, as the program has it.
const MEMORY: usize = 736_046;

/// The answers that each call can give, a closest call with a list of sixteen records.
const ANSWERS: [(&str, &[u8]); 5] = [
    ("init", &[0, 1, 5]),
    ("datagram", &[0, 1, 2, 3, 4, 5, 6, 7, 8, 9, 10, 11, 12, 13, 14, 15]),
    ("ping sent", &[0, 1, 2, 4, 5, 6, 7, 12, 16, 17, 18]),
    ("sweep", &[0, 1, 2]),
    ("closest", &[0, 1, 5]),
];
const VALUES: [&str; 11] = [
    "pong",
    "pong ping",
    "tail",
    "seat",
    "wait",
    "wait quiet",
    "wait pinged",
    "find",
    "nodes",
    "enr",
    "record",
];
const WALKS: [&str; 5] =
    ["nothing seated", "fewer than sixteen in all", "sixteen gathered", "17 to 30 distances", "31 distances"];
const BUCKETS: [u64; 5] = [1, 2, 3, 16, 256];

/// The fields of a case but its kind and the number of lent bytes.
#[derive(Default)]
struct Fields<'a> {
    number: u64,
    unix: u64,
    udp: u16,
    tcp: u16,
    key: &'a [u8],
    address: &'a [u8],
    data: &'a [u8],
}

/// The memory, the counters, and the cases so far with what they print.
struct Cases {
    memory: Vec<u8>,
    /// How many bytes of the memory are lent.
    lent: usize,
    counters: Counters,
    input: String,
    expected: String,
    calls: usize,
    reached: BTreeMap<String, usize>,
}

impl Cases {
    fn new() -> Cases {
        Cases {
            memory: vec![0; MEMORY],
            lent: 0,
            counters: Counters::default(),
            input: String::new(),
            expected: String::new(),
            calls: 0,
            reached: BTreeMap::new(),
        }
    }

    fn reach(&mut self, what: String) {
        *self.reached.entry(what).or_default() += 1;
    }

    fn lent(&mut self) -> &mut [u8] {
        &mut self.memory[..self.lent]
    }

    /// Adds a case, which was just run, and its line.
    fn add(&mut self, kind: u8, fields: &Fields, answer: &str) {
        let mut case = vec![kind];
        case.extend((self.lent as u32).to_be_bytes());
        case.extend(fields.number.to_be_bytes());
        case.extend(fields.unix.to_be_bytes());
        case.extend(fields.udp.to_be_bytes());
        case.extend(fields.tcp.to_be_bytes());
        let strings = [fields.key, fields.address, fields.data];
        case.extend(strings.iter().flat_map(|string| (string.len() as u16).to_be_bytes()));
        case.extend(strings.concat());
        writeln!(self.input, "{}", hex(&case)).unwrap();
        let hash = keccak256(self.lent());
        writeln!(self.expected, "{answer}\t{}", hex(&hash)).unwrap();
    }

    fn init(&mut self, lent: usize, buckets: u64, key: &[u8]) {
        self.lent = lent;
        let number = layout::init(self.lent(), buckets, key);
        self.reach(format!("init {number}"));
        self.add(0, &Fields { number: buckets, key, ..Fields::default() }, &number.to_string());
    }

    /// Runs a call on the lent memory, and gives its number.
    fn call(&mut self, call: &Call) -> u8 {
        self.calls += 1;
        if let Call::Closest { target, .. } = call {
            return self.closest(target);
        }
        let reply = layout::run(&mut self.memory[..self.lent], &mut self.counters, call);
        let mut answer = reply.number().to_string();
        if let Reply::Datagram(Ok(accepted)) = &reply {
            let (word, values) = values(accepted);
            self.reach(format!("datagram, {word}"));
            answer = format!("{answer}\t{values}");
        }
        let (kind, name, fields) = match call {
            Call::Datagram { now, unix, address, port, signer, datagram } => {
                let fields = Fields {
                    number: *now,
                    unix: *unix,
                    udp: *port,
                    tcp: 0,
                    key: signer,
                    address,
                    data: datagram,
                };
                (1, "datagram", fields)
            }
            Call::PingSent { now, key, endpoint: Endpoint { address, udp, tcp }, hash } => {
                let fields = Fields { number: *now, unix: 0, udp: *udp, tcp: *tcp, key, address, data: hash };
                (2, "ping sent", fields)
            }
            Call::Sweep { now } => (3, "sweep", Fields { number: *now, ..Fields::default() }),
            Call::Closest { .. } => unreachable!("run above"),
        };
        self.reach(format!("{name} {}", reply.number()));
        self.add(kind, &fields, &answer);
        reply.number()
    }

    /// A closest call on sixteen records with every byte ee.
    fn closest(&mut self, target: &[u8]) -> u8 {
        // an address of that length, of which a record has sixteen bytes
        let endpoint = Endpoint { address: vec![0xee; 0xee], udp: 0xeeee, tcp: 0xeeee };
        let mut list = vec![Node { endpoint, key: vec![0xee; 64] }; ENTRIES];
        let found = layout::closest(self.lent(), &mut list, target);
        let mut answer = match found {
            Err(number) => number.to_string(),
            Ok(Listed { count, distances }) => format!("0\t{count}\t{distances}"),
        };
        if let Ok(listed) = found {
            self.reach(format!("closest, {}", walk(listed.distances)));
        }
        for node in &list[..found.map_or(0, |listed| listed.count)] {
            write!(answer, "\t{}\t{}", hex(&node.key[..8]), endpoint_text(&node.endpoint)).unwrap();
        }
        let records: Vec<u8> = list.iter().flat_map(record).collect();
        write!(answer, "\t{}", hex(&keccak256(&records))).unwrap();
        let number = found.map_or_else(|number| number, |_| 0);
        self.reach(format!("closest {number}"));
        self.add(4, &Fields { key: target, ..Fields::default() }, &answer);
        number
    }

    /// Stores bytes in the lent memory.
    fn store(&mut self, at: usize, bytes: &[u8]) {
        self.lent()[at..at + bytes.len()].copy_from_slice(bytes);
        self.add(5, &Fields { number: at as u64, data: bytes, ..Fields::default() }, "0");
    }

    fn count(&mut self, number: u8) {
        let count = self.counters.0.get(usize::from(number)).copied().unwrap_or(0);
        let fields = Fields { number: number.into(), ..Fields::default() };
        self.add(6, &fields, &count.to_string());
    }

    fn clear(&mut self) {
        self.counters = Counters::default();
        self.add(7, &Fields::default(), "0");
    }

    /// The last line: the counts of 0 to 21.
    fn end(&mut self) {
        let counts = self.counters.0.map(|count| count.to_string()).join("\t");
        writeln!(self.expected, "counts\t{counts}").unwrap();
    }
}

/// How far a closest call went, by the number of distances that it worked out.
fn walk(distances: usize) -> &'static str {
    match distances {
        0 => "nothing seated",
        1..16 => "fewer than sixteen in all",
        16 => "sixteen gathered",
        31 => "31 distances",
        _ => "17 to 30 distances",
    }
}

/// A record's bytes: address length 1, address 16, ports 2 and 2, key 64.
fn record(node: &Node) -> Vec<u8> {
    let Endpoint { address, udp, tcp } = &node.endpoint;
    let mut bytes = vec![address.len() as u8];
    bytes.extend(address.iter().take(16));
    bytes.resize(17, 0);
    bytes.extend(udp.to_be_bytes());
    bytes.extend(tcp.to_be_bytes());
    bytes.extend(&node.key);
    bytes
}

fn endpoint_text(endpoint: &Endpoint) -> String {
    format!("{}\t{}\t{}", hex(&endpoint.address), endpoint.udp, endpoint.tcp)
}

/// What an accepted datagram's answer says: in short for the tally, and as it is printed.
fn values(accepted: &Accepted) -> (&'static str, String) {
    let word = match (&accepted.outcome, &accepted.packet) {
        (Outcome::Ping { ping_due: false }, _) => "pong",
        (Outcome::Ping { ping_due: true }, _) => "pong ping",
        (Outcome::Pong(PongOutcome::Tail), _) => "tail",
        (Outcome::Pong(PongOutcome::Seat), _) => "seat",
        (Outcome::Pong(PongOutcome::RangeFull), _) => "wait",
        (Outcome::Pong(PongOutcome::Wait { head, ping }), _) => {
            let node = format!("{}\t{}", hex(&head.key), endpoint_text(&head.endpoint));
            return match ping {
                PingState::Quiet => ("wait quiet", format!("wait\t{node}\tquiet")),
                PingState::Out(since) => ("wait pinged", format!("wait\t{node}\t{since}")),
            };
        }
        (Outcome::Other, Packet::FindNode { .. }) => "find",
        (Outcome::Other, Packet::Neighbors { .. }) => "nodes",
        (Outcome::Other, Packet::EnrRequest { .. }) => "enr",
        (Outcome::Other, _) => "record",
    };
    (word, word.replace(' ', "\t"))
}

// ---------------------------------------------------------------------------------------- stretches

/// A stretch of calls on one table.
struct Stretch {
    seed: u64,
    buckets: u64,
    /// Peers are drawn from so many random keys.
    keys: usize,
    /// From a sound table that no run reaches, or from a fresh one.
    sound: bool,
    calls: usize,
    /// How many kinds of unsound bytes are tried.
    damages: usize,
    /// Whether it ends with the faults of arguments.
    faults: bool,
}

/// Makes a table: refused calls of `init`, then an accepted one.
fn begin(cases: &mut Cases, random: &mut Random, own: &[u8], buckets: u64) {
    let fitting = size(buckets as usize);
    for _ in 0..random.below(3) {
        let short = &own[..*random.pick(&[0, 1, 32, 63])];
        let long = [own, own].concat();
        match random.below(6) {
            0 => cases.init(fitting - 1, buckets, own),
            1 => cases.init(fitting + 1, buckets, own),
            2 => cases.init(*random.pick(&[0, 1, 511, 512]), buckets, short),
            3 => cases.init(fitting, buckets + 1, own),
            4 => {
                let (lent, count) = *random.pick(&[(512, 0), (MEMORY, 257), (fitting, u64::MAX), (512, 0)]);
                cases.init(lent, count, own);
            }
            _ => cases.init(fitting, buckets, if random.chance(50) { short } else { &long }),
        }
    }
    cases.init(fitting, buckets, own);
}

/// Stores a table's bytes over a fresh one.
fn store_table(cases: &mut Cases, table: &Table) {
    cases.store(32, &table.clock.to_be_bytes());
    for (slot, bucket) in table.buckets.iter().enumerate() {
        let bytes = bucket_bytes(bucket);
        let (seats, waiting) = (bucket.entries.len(), bucket.replacements.len());
        if seats + waiting > 0 {
            cases.store(size(slot), &bytes[..SEATS + seats * ENTRY]);
        }
        if waiting > 0 {
            cases.store(size(slot) + LINE, &bytes[LINE..LINE + waiting * ENTRY]);
        }
    }
}

/// A call on memory of a wrong length.
fn wrong_length(cases: &mut Cases, random: &mut Random, call: &Call) {
    let fitting = cases.lent;
    let lengths =
        [0, 41, 42, 511, 512, fitting - 1, fitting + 1, fitting - layout::BUCKET, fitting + layout::BUCKET];
    cases.lent = (*random.pick(&lengths)).min(MEMORY);
    cases.call(call);
    cases.lent = fitting;
}

/// Calls on a table that is damaged in one way: on the damaged bucket, on all, on any. Then the bytes are
/// put back. False where no bucket has what the kind asks for.
fn damaged(cases: &mut Cases, calls: &mut Calls, table: &Table, kind: Kind, few: bool) -> bool {
    let held: Vec<usize> = (0..table.buckets.len())
        .filter(|slot| {
            !table.buckets[*slot].entries.is_empty() || !table.buckets[*slot].replacements.is_empty()
        })
        .collect();
    if held.is_empty() {
        return false;
    }
    // a bucket that has what the kind asks for, if there is one
    let first = calls.random.below(held.len());
    let found = (0..held.len()).find_map(|step| {
        let slot = held[(first + step) % held.len()];
        damage(&mut calls.random, kind, table, slot).map(|store| (slot, store))
    });
    let Some((slot, Store { at, bytes })) = found else { return false };
    let before = cases.memory[at..at + bytes.len()].to_vec();
    cases.store(at, &bytes);
    let now = table.clock.saturating_sub(calls.random.between(0, 1));
    let bucket = &table.buckets[slot];
    let entry = bucket.entries.iter().chain(&bucket.replacements).next().expect("a held node");
    let (key, endpoint) = (entry.key.to_vec(), entry.endpoint.clone());
    let ping = Call::PingSent { now, key: key.clone(), endpoint, hash: calls.random.bytes(32) };
    let mut numbers = vec![cases.call(&ping), cases.call(&Call::Sweep { now })];
    if !few || calls.random.chance(30) {
        numbers.push(cases.call(&Call::Closest { target: key, room: ENTRIES }));
    }
    if !few || calls.random.chance(30) {
        let call = calls.next(Some(table));
        numbers.push(cases.call(&call));
    }
    for number in numbers {
        cases.reach(format!("{kind:?}, {}", if number == 1 { "1" } else { "not 1" }));
    }
    // 1 goes first, also where the bucket isn't among those that the list takes
    let targets: Vec<Vec<u8>> = (0..8).map(|_| calls.random.bytes(64)).collect();
    let away = targets.into_iter().find(|target| !table.taken(&keccak256(target)).contains(&slot));
    if let Some(target) = away.filter(|_| !few || calls.random.chance(30)) {
        if cases.call(&Call::Closest { target, room: ENTRIES }) == 1 {
            cases.reach("closest 1 of a bucket that isn't taken".to_string());
        }
    }
    cases.store(at, &before);
    true
}

/// A FindNode or a Pong of an entry, at its endpoint.
fn packet(calls: &mut Calls, entry: &Entry, now: u64, kind: u8, hash: &[u8]) -> Call {
    let datagram = datagrams::good(&mut calls.random, kind, 9, hash);
    let Endpoint { address, udp: port, .. } = entry.endpoint.clone();
    Call::Datagram { now, unix: 9, address, port, signer: entry.key.to_vec(), datagram }
}

/// The last millisecond at which an entry's proof isn't too old, unless it is past.
fn due(table: &Table, entry: &Entry) -> Option<u64> {
    entry.proof?.checked_add(PROOF_LIFETIME).filter(|due| *due >= table.clock)
}

/// Closest calls that go as far as the table lets them: of the own key and of random targets, one for each way.
fn walks(cases: &mut Cases, calls: &mut Calls, table: &Table) {
    let mut done = Vec::new();
    let random = (0..64).map(|_| calls.random.bytes(64)).collect::<Vec<_>>();
    for target in [calls.peers.own.to_vec()].into_iter().chain(random) {
        let taken = table.taken(&keccak256(&target));
        let far = walk(taken.iter().map(|slot| table.buckets[*slot].entries.len()).sum());
        if !done.contains(&far) {
            cases.call(&Call::Closest { target, room: ENTRIES });
            done.push(far);
        }
    }
}

/// Both sides of 43,200,000 ms and of 500 ms: proofs of a replacement in a full bucket and of an entry,
/// pongs, sweeps.
fn edges(cases: &mut Cases, calls: &mut Calls, table: &Table) {
    let waiting = table.buckets.iter().flat_map(|bucket| &bucket.replacements);
    if let Some(now) = waiting.filter_map(|entry| due(table, entry)).min() {
        cases.call(&Call::Sweep { now });
        cases.call(&Call::Sweep { now: now.saturating_add(1) });
    }
    let Some(table) = layout::read(cases.lent()) else { return };
    let seated = table.buckets.iter().flat_map(|bucket| &bucket.entries);
    let quiet = seated.filter(|entry| entry.ping == PingState::Quiet);
    let latest = quiet.filter_map(|entry| Some((due(&table, entry)?, entry))).max_by_key(|(due, _)| *due);
    let Some((due, entry)) = latest else { return };
    let Some(last) = due.checked_add(1 + 2 * PING_TIMEOUT + 1) else { return };
    let (out, again) = (due + 1, due + 1 + PING_TIMEOUT);
    let hash = calls.random.bytes(32);
    let ping = |now| {
        let (key, endpoint) = (entry.key.to_vec(), entry.endpoint.clone());
        Call::PingSent { now, key, endpoint, hash: hash.clone() }
    };
    for call in [
        packet(calls, entry, due, 3, &hash),
        packet(calls, entry, due + 1, 3, &hash),
        ping(out),
        Call::Sweep { now: again },
        packet(calls, entry, again, 2, &hash),
        ping(again),
        packet(calls, entry, last, 2, &hash),
        Call::Sweep { now: last },
    ] {
        cases.call(&call);
    }
}

/// Pings and datagrams of a held node with one or two faults in their arguments; a sweep, a closest call
/// and an `init` with one.
fn faults(cases: &mut Cases, calls: &mut Calls, table: &Table) {
    let held = table.buckets.iter().flat_map(|bucket| bucket.entries.iter().chain(&bucket.replacements));
    let Some(entry) = held.last() else { return };
    let random = &mut calls.random;
    let (now, own, unix) = (table.clock, &calls.peers.own[..], 9);
    let (address, udp) = (&entry.endpoint.address[..], entry.endpoint.udp);
    let good = datagrams::good(random, 1, unix, &[]);
    let kind = *random.pick(&[0, 7, 255]);
    let unknown = datagrams::datagram(random, kind, &[0xc0]);
    let mut broken = good.clone();
    broken[*random.pick(&[0, 31, 32, good.len() - 1])] ^= 1;
    let long = datagrams::datagram(random, 1, &[0; 1281 - 98]);
    let (short_hash, hash) = (random.bytes(31), random.bytes(32));
    let (short_key, long_key) = (&entry.key[..63], [own, &[0]].concat());

    let key = &entry.key[..];
    for (key, address, hash) in [
        (key, address, &short_hash),
        (short_key, address, &short_hash),
        (&long_key[..], address, &hash),
        (key, &own[..5], &hash),
        (own, &[][..], &hash),
        (own, address, &hash),
    ] {
        let endpoint = Endpoint { address: address.to_vec(), udp, tcp: udp };
        cases.call(&Call::PingSent { now, key: key.to_vec(), endpoint, hash: hash.clone() });
    }
    for (signer, address, datagram) in [
        (key, address, &good[..97]),
        (key, address, &long[..]),
        (&[][..], address, &broken[..]),
        (&[][..], &own[..3], &good[..]),
        (key, &own[..17], &good[..]),
        (own, address, &unknown[..]),
        (key, address, &unknown[..]),
    ] {
        let (address, signer, datagram) = (address.to_vec(), signer.to_vec(), datagram.to_vec());
        cases.call(&Call::Datagram { now, unix, address, port: udp, signer, datagram });
    }
    cases.call(&Call::Sweep { now: now.saturating_sub(1) });
    cases.call(&Call::Closest { target: short_key.to_vec(), room: ENTRIES });
    cases.init(cases.lent, table.buckets.len() as u64, short_key);
}

/// The first kind in turn that the table has something for; those passed over come first the next time.
fn damaged_in_turn(cases: &mut Cases, calls: &mut Calls, table: &Table, kinds: &mut Vec<Kind>, few: bool) {
    if let Some(turn) = (0..kinds.len()).find(|turn| damaged(cases, calls, table, kinds[*turn], few)) {
        let kind = kinds.remove(turn);
        kinds.push(kind);
    }
}

fn run(cases: &mut Cases, stretch: &Stretch, kinds: &mut Vec<Kind>, few: bool) {
    let mut calls = Calls::new(stretch.seed, stretch.keys, true);
    let own = calls.peers.own;
    begin(cases, &mut calls.random, &own, stretch.buckets);
    cases.reach(format!("{} buckets", stretch.buckets));
    if stretch.sound {
        let table = sound_table(&mut calls, stretch.buckets);
        store_table(cases, &table);
    }
    if let Some(table) = layout::read(cases.lent()) {
        walks(cases, &mut calls, &table);
    }
    let every = stretch.calls / (stretch.damages + 1) + 1;
    for number in 1..=stretch.calls {
        let Some(table) = layout::read(cases.lent()) else { return };
        let call = calls.next(Some(&table));
        if calls.random.chance(3) {
            wrong_length(cases, &mut calls.random, &call);
        }
        cases.call(&call);
        if number % every == 0 {
            let Some(table) = layout::read(cases.lent()) else { return };
            damaged_in_turn(cases, &mut calls, &table, kinds, few);
        }
        if calls.random.chance(1) {
            let number = calls.random.below(24) as u8;
            cases.count(if calls.random.chance(10) { 255 } else { number });
        }
    }
    let Some(table) = layout::read(cases.lent()) else { return };
    edges(cases, &mut calls, &table);
    if stretch.faults {
        let Some(table) = layout::read(cases.lent()) else { return };
        faults(cases, &mut calls, &table);
    }
    if calls.random.chance(30) {
        cases.clear();
    }
}

/// The bounded set; with these seeds it reaches everything.
const STORED: [Stretch; 5] = [
    Stretch { seed: 783, buckets: 1, keys: 64, sound: false, calls: 120, damages: 10, faults: true },
    Stretch { seed: 938, buckets: 2, keys: 96, sound: true, calls: 60, damages: 20, faults: false },
    Stretch { seed: 835, buckets: 3, keys: 128, sound: true, calls: 80, damages: 20, faults: false },
    Stretch { seed: 746, buckets: 16, keys: 256, sound: false, calls: 60, damages: 5, faults: false },
    Stretch { seed: 622, buckets: 256, keys: 32, sound: true, calls: 30, damages: 5, faults: false },
];

fn stored(cases: &mut Cases) {
    let mut kinds = KINDS.to_vec();
    for stretch in &STORED {
        run(cases, stretch, &mut kinds, true);
    }
    cases.end();
}

fn generated(cases: &mut Cases, seed: u64, count: usize) {
    let mut random = Random::new(seed);
    let mut kinds = KINDS.to_vec();
    while cases.calls < count {
        let buckets = *random.pick(&[1, 1, 1, 2, 2, 3, 3, 3, 4, 16, 16, 16, 17, 256]);
        let most = if buckets == 256 { 40 } else { 400 };
        let calls = (random.between(20, most) as usize).min(count - cases.calls);
        let keys = *random.pick(&[32, 64, 128, 512, 1024]);
        let sound = random.chance(50);
        let stretch = Stretch {
            seed: random.number(),
            buckets,
            keys,
            sound,
            calls,
            damages: calls / 8,
            faults: random.chance(50),
        };
        run(cases, &stretch, &mut kinds, false);
    }
    cases.end();
}

/// Everything that the cases should reach.
fn wanted() -> Vec<String> {
    let answers =
        ANSWERS.iter().flat_map(|(call, numbers)| numbers.iter().map(move |n| format!("{call} {n}")));
    let values = VALUES.iter().map(|word| format!("datagram, {word}"));
    let buckets = BUCKETS.iter().map(|count| format!("{count} buckets"));
    let unsound = KINDS.iter().map(|kind| format!("{kind:?}, 1"));
    let walks = WALKS.iter().map(|walk| format!("closest, {walk}"));
    let far = ["closest 1 of a bucket that isn't taken".to_string()];
    answers.chain(values).chain(buckets).chain(unsound).chain(walks).chain(far).collect()
}

fn save(cases: &Cases, input: &str, expected: &str) -> std::io::Result<()> {
    std::fs::write(input, &cases.input)?;
    std::fs::write(expected, &cases.expected)
}

fn main() -> ExitCode {
    let arguments: Vec<String> = std::env::args().skip(1).collect();
    let mut cases = Cases::new();
    let saved = match arguments.iter().map(String::as_str).collect::<Vec<_>>()[..] {
        ["--stored", folder] => {
            stored(&mut cases);
            save(&cases, &format!("{folder}/stdin"), &format!("{folder}/stdout"))
        }
        [seed, count, input, expected] if seed.parse::<u64>().is_ok() && count.parse::<usize>().is_ok() => {
            generated(&mut cases, seed.parse().unwrap(), count.parse().unwrap());
            save(&cases, input, expected)
        }
        _ => {
            eprintln!("usage: call_cases SEED COUNT CASES EXPECTED, or call_cases --stored DIR");
            return ExitCode::FAILURE;
        }
    };
    for (what, count) in &cases.reached {
        eprintln!("{count:>9}  {what}");
    }
    let missing: Vec<String> =
        wanted().into_iter().filter(|what| !cases.reached.contains_key(what)).collect();
    if !missing.is_empty() {
        eprintln!("not reached: {}", missing.join("; "));
    }
    if let Err(error) = saved {
        eprintln!("call_cases: {error}");
        return ExitCode::FAILURE;
    }
    ExitCode::SUCCESS
}
