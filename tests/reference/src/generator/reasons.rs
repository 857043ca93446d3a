//! Which cases of C-17 the keys of a log show.

use std::collections::{BTreeMap, BTreeSet};

use crate::bucket::{PingState, PING_TIMEOUT, PROOF_LIFETIME};
use crate::calls::Call;
use crate::hex;
use crate::log::{lines, read, Line, LONGEST_LINE};
use crate::table::Table;
use crate::why::{self, Event, Reason, Why};

/// Every case that is told. The logs of a comparison together must show all of them.
#[rustfmt::skip]
pub const CASES: [&str; 49] = [
    "seated by its pong", "seated by a sweep", "seated after a removal",
    "seated, at the tail by its seating", "seated, at the tail by a pong", "seated, at the tail by another packet",
    "seated by a sweep, at the tail by a later line", "seated, at the tail by a packet that changes no byte of the table",
    "seated, and an accepted packet from elsewhere behind its tail", "seated, and a ping out overdue but not swept",
    "seated, swept with an old proof", "seated, and a refused line behind its tail",
    "waiting, unproved", "waiting, proved", "waiting after a removal for a ping", "waiting after a removal for its proof",
    "waiting, swept at 500 ms", "waiting, swept at 43,200,000 ms", "waiting, and a refused line behind it",
    "ping, of a seat", "ping, of a waiting node", "ping, at 501 ms", "ping, not the one that began the stay",
    "ping, and one more refused with 17 before the sweep", "ping, and a refused line behind the sweep",
    "ping, and an old proof", "ping, after an earlier removal",
    "proof, at 43,200,001 ms", "proof, and a ping out in time", "proof, and a line behind the sweep",
    "never, 0", "never, 1 before own, as signer", "never, 1 before own, as ping target", "never, 1 without an accepted own",
    "never, 2 to 15, as signer", "never, 2 to 15, as ping target", "never, 18", "never, 0 after a refusal",
    "never, a refusal after 0", "never, the own key as signer", "never, the own key as ping target",
    "unnamed, nowhere in the log", "unnamed, the own key", "unnamed, only in unreadable lines",
    "named before own, held later", "an empty line counted", "an unreadable line counted", "a line over 3,000 bytes counted",
    "told by a last line without 0A",
];

/// A key of a log.
#[derive(Default)]
struct Seen {
    events: Vec<(u64, Event)>,
    /// Cases of single lines, with the line.
    marks: Vec<(u64, &'static str)>,
}

/// A key with what is told of it and the cases that it shows.
pub struct Told {
    pub key: Vec<u8>,
    pub reason: Reason,
    pub cases: BTreeSet<&'static str>,
}

/// What is noted of each key while the log is read.
#[derive(Default)]
struct Watch {
    why: Why,
    seen: BTreeMap<Vec<u8>, Seen>,
    /// The keys of `own` lines, and those in lines that aren't readable.
    own: Option<Vec<u8>>,
    mentioned: BTreeSet<Vec<u8>>,
    accepted_own: Option<u64>,
    /// The first line of each form that the numbers of later ones count.
    first: BTreeMap<&'static str, u64>,
}

impl Watch {
    fn mark(&mut self, key: &[u8], case: &'static str) {
        let line = self.why.lines + 1;
        self.seen.entry(key.to_vec()).or_default().marks.push((line, case));
    }

    /// Reads a line; the keys that it was about.
    fn line(&mut self, line: &[u8]) -> BTreeSet<Vec<u8>> {
        let number = self.why.lines + 1;
        let before = self.why.replay.table.clone();
        let asked = read(line);
        match &asked {
            Some(Line::Own { key, .. }) => {
                if self.own.is_none() && key.len() == 64 {
                    self.own = Some(key.clone());
                }
            }
            Some(Line::Call(Call::Sweep { now })) => self.before_sweep(before.as_ref(), *now),
            Some(Line::Call(_)) => {}
            None => {
                let form = match line.len() {
                    0 => "an empty line counted",
                    length if length > LONGEST_LINE => "a line over 3,000 bytes counted",
                    _ => "an unreadable line counted",
                };
                self.first.entry(form).or_insert(number);
                let fields = line.split(|byte| *byte == b'\t');
                self.mentioned.extend(fields.filter_map(|field| Some(why::key(field).ok()?.to_vec())));
            }
        }
        let events = self.why.line(line);
        if self.accepted_own.is_none() && self.why.replay.table.is_some() {
            self.accepted_own = Some(number);
        }
        let mut about = BTreeSet::new();
        for (key, event) in events {
            about.insert(key.clone());
            let unmoved = matches!(event, Event::Named(0))
                && before.as_ref().is_some_and(|table| table.is_seated(&key));
            let seen = self.seen.entry(key).or_default();
            seen.events.push((number, event));
            if matches!(asked, Some(Line::Call(Call::Datagram { .. }))) {
                seen.marks.push((number, if unmoved { "accepted" } else { "signer" }));
            }
            if event == Event::TailByPacket && before == self.why.replay.table {
                seen.marks.push((number, "no byte changed"));
            }
        }
        if matches!(asked, Some(Line::Call(Call::Sweep { .. }))) {
            let marked = |seen: &Seen| seen.marks.last().is_some_and(|(line, _)| *line == number);
            about.extend(self.seen.iter().filter(|(_, seen)| marked(seen)).map(|(key, _)| key.clone()));
        }
        about
    }

    /// The ages at a sweep of whoever is held.
    fn before_sweep(&mut self, table: Option<&Table>, now: u64) {
        let Some(table) = table.filter(|table| now >= table.clock) else { return };
        for bucket in &table.buckets {
            let seats = bucket.entries.iter().map(|entry| (entry, true));
            for (entry, seated) in seats.chain(bucket.replacements.iter().map(|entry| (entry, false))) {
                let out = match entry.ping {
                    PingState::Out(since) => Some(now - since),
                    PingState::Quiet => None,
                };
                let age = entry.proof.map(|proof| now - proof);
                let old = age.is_some_and(|age| age > PROOF_LIFETIME);
                for (case, holds) in [
                    ("500", out == Some(PING_TIMEOUT)),
                    ("501", out == Some(PING_TIMEOUT + 1)),
                    ("43,200,000", age == Some(PROOF_LIFETIME)),
                    ("43,200,001", age == Some(PROOF_LIFETIME + 1)),
                    ("old", old),
                    ("old seat", old && seated),
                    ("old, ping in time", old && out.is_some_and(|out| out <= PING_TIMEOUT)),
                    ("seat swept", seated),
                ] {
                    if holds {
                        self.mark(&entry.key, case);
                    }
                }
            }
        }
    }

    /// The cases that a key shows.
    fn cases(&self, key: &[u8], without_0a: bool) -> BTreeSet<&'static str> {
        let none = Seen::default();
        let seen = self.seen.get(key).unwrap_or(&none);
        let reason = self.why.reason(key);
        let mut cases = BTreeSet::new();
        let mut case = |name: &'static str, holds: bool| {
            assert!(CASES.contains(&name), "{name}");
            if holds {
                cases.insert(name);
            }
        };
        let at = |line: u64| seen.events.iter().filter(move |(n, _)| *n == line).map(|(_, event)| *event);
        let is = |line: u64, event: Event| at(line).any(|e| e == event);
        let marked = |line: u64, name: &str| seen.marks.contains(&(line, name));
        let removed = |event: Event, before: u64| seen.events.iter().any(|(n, e)| *n < before && *e == event);
        let any_removed =
            |before: u64| removed(Event::RemovedForPing, before) || removed(Event::RemovedForProof, before);
        let refused = |from: u64, to: u64| {
            seen.events
                .iter()
                .any(|(n, e)| from < *n && *n < to && matches!(e, Event::Named(number) if *number != 0))
        };
        let numbers = || {
            seen.events.iter().filter_map(|(n, event)| match event {
                Event::Named(number) => Some((*n, *number)),
                _ => None,
            })
        };
        let is_own = self.own.as_deref() == Some(key);
        let end = u64::MAX;
        match reason {
            Reason::Seated { seat, tail } => {
                let by_sweep = is(seat, Event::SeatedBySweep);
                case("seated by its pong", !by_sweep);
                case("seated by a sweep", by_sweep);
                case("seated after a removal", any_removed(seat));
                case("seated, at the tail by its seating", tail == seat);
                case("seated, at the tail by a pong", is(tail, Event::TailByPong));
                case("seated, at the tail by another packet", is(tail, Event::TailByPacket));
                case("seated by a sweep, at the tail by a later line", by_sweep && tail > seat);
                case(
                    "seated, at the tail by a packet that changes no byte of the table",
                    marked(tail, "no byte changed"),
                );
                let elsewhere = seen.marks.iter().any(|(n, mark)| *n > tail && *mark == "accepted");
                case("seated, and an accepted packet from elsewhere behind its tail", elsewhere);
                let table = self.why.replay.table.as_ref().expect("a seat is in a table");
                let overdue = table.held(key).is_some_and(|entry| entry.is_overdue(table.clock));
                case("seated, and a ping out overdue but not swept", overdue);
                let old = seen.marks.iter().any(|(n, mark)| *n > seat && *mark == "old seat");
                case("seated, swept with an old proof", old);
                case("seated, and a refused line behind its tail", refused(tail, end));
            }
            Reason::Waiting { stay } => {
                let table = self.why.replay.table.as_ref().expect("a waiting place is in a table");
                let proved = table.held(key).is_some_and(|entry| entry.proof.is_some());
                let last =
                    seen.events.iter().rev().find(|(n, e)| {
                        *n < stay && matches!(e, Event::RemovedForPing | Event::RemovedForProof)
                    });
                let since = |name: &str| seen.marks.iter().any(|(n, mark)| *n > stay && *mark == name);
                case("waiting, unproved", !proved);
                case("waiting, proved", proved);
                case(
                    "waiting after a removal for a ping",
                    last.is_some_and(|(_, e)| *e == Event::RemovedForPing),
                );
                case(
                    "waiting after a removal for its proof",
                    last.is_some_and(|(_, e)| *e == Event::RemovedForProof),
                );
                case("waiting, swept at 500 ms", since("500"));
                case("waiting, swept at 43,200,000 ms", since("43,200,000"));
                case("waiting, and a refused line behind it", refused(stay, end));
            }
            Reason::Ping { sweep, ping } => {
                let seat = marked(sweep, "seat swept");
                case("ping, of a seat", seat);
                case("ping, of a waiting node", !seat);
                case("ping, at 501 ms", marked(sweep, "501"));
                case("ping, not the one that began the stay", is(ping, Event::Pinged));
                let again = numbers().any(|(n, number)| ping < n && n < sweep && number == 17);
                case("ping, and one more refused with 17 before the sweep", again);
                case("ping, and a refused line behind the sweep", refused(sweep, end));
                case("ping, and an old proof", marked(sweep, "old"));
                case("ping, after an earlier removal", any_removed(sweep));
            }
            Reason::Proof { sweep } => {
                case("proof, at 43,200,001 ms", marked(sweep, "43,200,001"));
                case("proof, and a ping out in time", marked(sweep, "old, ping in time"));
                case("proof, and a line behind the sweep", numbers().any(|(n, _)| n > sweep));
            }
            Reason::Never { number } => {
                let (last, _) = numbers().next_back().expect("named");
                case("never, 0", number == 0);
                let signer = marked(last, "signer");
                let early = self.accepted_own.is_some_and(|own| last < own);
                case("never, 1 before own, as signer", early && signer);
                case("never, 1 before own, as ping target", early && !signer);
                case("never, 1 without an accepted own", self.accepted_own.is_none());
                let refused = (2..=15).contains(&number) && !is_own;
                case("never, 2 to 15, as signer", refused && signer);
                case("never, 2 to 15, as ping target", refused && !signer);
                case("never, 18", number == 18);
                case("never, 0 after a refusal", number == 0 && numbers().any(|(_, number)| number > 1));
                case("never, a refusal after 0", number != 0 && numbers().any(|(_, number)| number == 0));
                case("never, the own key as signer", is_own && number == 7 && signer);
                case("never, the own key as ping target", is_own && number == 7 && !signer);
            }
            Reason::Unnamed => {
                let mentioned = self.mentioned.contains(key);
                case("unnamed, nowhere in the log", !mentioned && !is_own);
                case("unnamed, the own key", is_own);
                case("unnamed, only in unreadable lines", mentioned && !is_own);
            }
        }
        let told = match reason {
            Reason::Seated { tail: line, .. } | Reason::Waiting { stay: line } => Some(line),
            Reason::Ping { sweep: line, .. } | Reason::Proof { sweep: line } => Some(line),
            Reason::Never { .. } | Reason::Unnamed => None,
        };
        let early = numbers().any(|(n, _)| self.accepted_own.is_some_and(|own| n < own));
        case("named before own, held later", told.is_some() && early);
        for (form, line) in &self.first {
            case(form, told.is_some_and(|told| told > *line));
        }
        case("told by a last line without 0A", without_0a && told == Some(self.why.lines));
        cases
    }
}

/// Every key that a log names or mentions, the own one and a stranger.
pub fn told(log: &[u8]) -> Vec<Told> {
    let mut watch = Watch::default();
    for line in lines(log) {
        watch.line(line);
    }
    let mut keys: BTreeSet<Vec<u8>> = watch.why.named().into_iter().map(<[u8]>::to_vec).collect();
    keys.extend(watch.own.clone());
    keys.extend(watch.mentioned.clone());
    keys.extend((1..=255u8).map(|byte| vec![byte; 64]).find(|key| !keys.contains(key)));
    let without_0a = log.last().is_some_and(|byte| *byte != b'\n');
    keys.into_iter()
        .map(|key| Told { reason: watch.why.reason(&key), cases: watch.cases(&key, without_0a), key })
        .collect()
}

/// Each case with the first line behind which a key shows it.
pub fn cuts(log: &[u8]) -> BTreeMap<&'static str, u64> {
    let mut watch = Watch::default();
    let mut first = BTreeMap::new();
    for line in lines(log) {
        for key in watch.line(line) {
            for case in watch.cases(&key, false) {
                first.entry(case).or_insert(watch.why.lines);
            }
        }
    }
    first
}

/// A row for each key: the key, its cases parted by `;`, the reason.
pub fn rows(log: &[u8]) -> String {
    let row = |told: Told| {
        let cases: Vec<&str> = told.cases.into_iter().collect();
        format!("{}\t{}\t{}\n", hex(&told.key), cases.join(";"), told.reason)
    };
    told(log).into_iter().map(row).collect()
}
