//! Why a node is or isn't in the table at a log's end (C-17).
//!
//! It doesn't look back through the log: while the lines are replayed, each held node has a place with the numbers of
//! the lines that matter (its stay, ping, seat and tail), and what removed a node is remembered by its key.

use std::collections::HashMap;
use std::fmt;

use crate::calls::Call;
use crate::log::{read, Line, Replay};
use crate::Number;

/// "be told the reason as one line". Numbers of lines count from 1, and count every line.
#[derive(Clone, Copy, Debug, PartialEq, Eq)]
pub enum Reason {
    /// "seated at line n, last put at the tail at line m"
    Seated { seat: u64, tail: u64 },
    /// "since line n"
    Waiting { stay: u64 },
    /// "removed by the sweep at line n for the ping at line m"
    Ping { sweep: u64, ping: u64 },
    /// "removed from the line by the sweep at line n because its proof was too old"
    Proof { sweep: u64 },
    /// "never held, a the last answer number its lines got"
    Never { number: Number },
    /// "no well-formed line has it as signer or ping target"
    Unnamed,
}

impl fmt::Display for Reason {
    /// "fields parted by tabs"
    fn fmt(&self, f: &mut fmt::Formatter) -> fmt::Result {
        match self {
            Reason::Seated { seat, tail } => write!(f, "seated\t{seat}\t{tail}"),
            Reason::Waiting { stay } => write!(f, "waiting\t{stay}"),
            Reason::Ping { sweep, ping } => write!(f, "ping\t{sweep}\t{ping}"),
            Reason::Proof { sweep } => write!(f, "proof\t{sweep}"),
            Reason::Never { number } => write!(f, "never\t{number}"),
            Reason::Unnamed => write!(f, "unnamed"),
        }
    }
}

/// "one key (64 bytes as in a log, else 5)": 128 hex digits in lower case.
pub fn key(text: &[u8]) -> Result<[u8; 64], Number> {
    if text.len() != 128 || !text.iter().all(|digit| matches!(digit, b'0'..=b'9' | b'a'..=b'f')) {
        return Err(5);
    }
    let digit = |at: usize| (text[at] as char).to_digit(16).unwrap() as u8;
    Ok(std::array::from_fn(|i| digit(2 * i) << 4 | digit(2 * i + 1)))
}

/// What a line did to a node.
#[derive(Clone, Copy, Debug, PartialEq, Eq)]
pub enum Event {
    /// A well-formed line has it as signer or ping target, and got this number.
    Named(Number),
    /// It joined the line by a ping.
    Joined,
    /// A ping to it was recorded, and it was held already.
    Pinged,
    SeatedByPong,
    SeatedBySweep,
    /// Seated, it went to the tail.
    TailByPong,
    TailByPacket,
    RemovedForPing,
    RemovedForProof,
}

/// Line numbers of a held node.
struct Place {
    /// The ping that put it in line.
    stay: u64,
    /// The last recorded ping.
    ping: u64,
    /// The line that seated it, if it is seated.
    seat: Option<u64>,
    /// The last line that put it at the tail.
    tail: u64,
}

#[derive(Default)]
pub struct Why {
    pub replay: Replay,
    /// How many lines were read.
    pub lines: u64,
    places: HashMap<Vec<u8>, Place>,
    removed: HashMap<Vec<u8>, Reason>,
    /// The last answer number of each key that is named.
    numbers: HashMap<Vec<u8>, Number>,
}

impl Why {
    /// Reads one line, without its 0A; what it did to whom.
    pub fn line(&mut self, line: &[u8]) -> Vec<(Vec<u8>, Event)> {
        let events = self.replayed(line);
        self.lines += 1;
        for (key, event) in &events {
            self.note(key, *event);
        }
        events
    }

    /// The reason after the lines read so far.
    pub fn reason(&self, key: &[u8]) -> Reason {
        match (self.places.get(key), self.removed.get(key), self.numbers.get(key)) {
            // whoever is held now was seated or put in line after every removal
            (Some(Place { seat: Some(seat), tail, .. }), _, _) => Reason::Seated { seat: *seat, tail: *tail },
            (Some(Place { stay, .. }), _, _) => Reason::Waiting { stay: *stay },
            (None, Some(reason), _) => *reason,
            (None, None, Some(number)) => Reason::Never { number: *number },
            (None, None, None) => Reason::Unnamed,
        }
    }

    /// The keys of 64 bytes that are named, in order.
    pub fn named(&self) -> Vec<&[u8]> {
        let mut keys: Vec<&[u8]> =
            self.numbers.keys().map(|key| &key[..]).filter(|key| key.len() == 64).collect();
        keys.sort();
        keys
    }

    fn note(&mut self, key: &[u8], event: Event) {
        let line = self.lines;
        match event {
            Event::Named(number) => {
                self.numbers.insert(key.to_vec(), number);
            }
            Event::Joined => {
                self.places.insert(key.to_vec(), Place { stay: line, ping: line, seat: None, tail: 0 });
            }
            Event::Pinged => self.place(key).ping = line,
            Event::SeatedByPong | Event::SeatedBySweep => {
                let place = self.place(key);
                place.seat = Some(line);
                place.tail = line;
            }
            Event::TailByPong | Event::TailByPacket => self.place(key).tail = line,
            Event::RemovedForPing => {
                let ping = self.place(key).ping;
                self.places.remove(key);
                self.removed.insert(key.to_vec(), Reason::Ping { sweep: line, ping });
            }
            Event::RemovedForProof => {
                self.places.remove(key);
                self.removed.insert(key.to_vec(), Reason::Proof { sweep: line });
            }
        }
    }

    fn place(&mut self, key: &[u8]) -> &mut Place {
        self.places.get_mut(key).expect("a held node has a place")
    }

    fn is_seated(&self, key: &[u8]) -> bool {
        self.places.get(key).is_some_and(|place| place.seat.is_some())
    }

    /// Replays a line.
    fn replayed(&mut self, line: &[u8]) -> Vec<(Vec<u8>, Event)> {
        // `own` names nobody, nor does a line that isn't readable
        let Some(Line::Call(call)) = read(line) else {
            self.replay.line(line);
            return Vec::new();
        };
        let mut events = Vec::new();
        match &call {
            Call::Datagram { now, address, port, signer, .. } => {
                let table = self.replay.table.as_ref().filter(|table| *now >= table.clock);
                let held = table.and_then(|table| table.held(signer));
                let verified = held.is_some_and(|entry| entry.is_verified(*now, address, *port));
                let answer = self.replay.line(line);
                let fields: Vec<&str> = answer.split('\t').collect();
                events.push((signer.clone(), Event::Named(fields[0].parse().unwrap())));
                // what a pong did is told by its answer; any other accepted packet moves a verified seat
                let event = match &fields[..] {
                    ["0", "seat"] => Some(Event::SeatedByPong),
                    ["0", "tail"] => Some(Event::TailByPong),
                    ["0", "wait", ..] => None,
                    ["0", ..] if verified && self.is_seated(signer) => Some(Event::TailByPacket),
                    _ => None,
                };
                events.extend(event.map(|event| (signer.clone(), event)));
            }
            Call::PingSent { key, .. } => {
                let answer = self.replay.line(line);
                events.push((key.clone(), Event::Named(answer.parse().unwrap())));
                if answer == "0" {
                    let event = if self.places.contains_key(key) { Event::Pinged } else { Event::Joined };
                    events.push((key.clone(), event));
                }
            }
            Call::Sweep { now } => {
                let Some(before) = self.replay.table.clone() else {
                    self.replay.line(line);
                    return events;
                };
                if self.replay.line(line) == "0" {
                    let after = self.replay.table.as_ref().expect("a table stays");
                    for key in self.places.keys() {
                        let left = before.held(key).expect("a place is a held node's");
                        let event = match after.held(key) {
                            // "an overdue ping comes before an old proof"
                            None if left.is_overdue(*now) => Event::RemovedForPing,
                            None => Event::RemovedForProof,
                            Some(_) if after.is_seated(key) && !self.is_seated(key) => Event::SeatedBySweep,
                            Some(_) => continue,
                        };
                        events.push((key.clone(), event));
                    }
                }
            }
            Call::Closest { .. } => unreachable!("a log has no closest calls"),
        }
        events
    }
}

/// The reason that a whole log gives for a key.
pub fn why(log: &[u8], key: &[u8]) -> Reason {
    let mut why = Why::default();
    for line in crate::log::lines(log) {
        why.line(line);
    }
    why.reason(key)
}
