//! Calls as values, to drive this implementation and another one side by side.
//!
//! A test of the C boundary keeps a [`Table`] and [`Counters`] beside the other side's bytes:
//!
//! 1. `Table::init(buckets, own_key)` on both sides, any bucket count and key.
//! 2. Take calls from [`crate::generator::calls::Calls::next`] (or write them by hand); run each with
//!    [`Call::run`] here and with the function of the same name there.
//! 3. Compare [`Reply::number`]; for an accepted datagram the fields and outcome ([`Reply::Datagram`]);
//!    for closest the list, with [`Reply::Closest`]; after every call or after the last one the
//!    tables by [`crate::log::printout`] and the counters. [`Reply::text`] is the answer as the replay
//!    prints it, where comparing texts is enough.
//! 4. Ping hashes aren't in the printout: [`crate::layout::table_bytes`] writes the whole table in the byte
//!    layout of docs/LAYOUT.md, and [`crate::layout::run`] runs a call on such bytes, sound or not.
//!    [`crate::generator::tables::sound_table`] makes sound tables that no run reaches.
//!
//! [`run`] does all of it at once for a list of calls.

use crate::log;
use crate::packet::{Endpoint, Node};
use crate::table::{number, Accepted, Counters, Table};
use crate::Number;

/// A call with its arguments other than table and counters.
#[derive(Clone, Debug, PartialEq, Eq)]
pub enum Call {
    Datagram {
        now: u64,
        unix: u64,
        address: Vec<u8>,
        port: u16,
        signer: Vec<u8>,
        datagram: Vec<u8>,
    },
    PingSent {
        now: u64,
        key: Vec<u8>,
        endpoint: Endpoint,
        hash: Vec<u8>,
    },
    Sweep {
        now: u64,
    },
    /// With the length of the list lent.
    Closest {
        target: Vec<u8>,
        room: usize,
    },
}

/// An answer with its values.
#[derive(Clone, Debug, PartialEq, Eq)]
pub enum Reply {
    Datagram(Result<Accepted, Number>),
    PingSent(Result<(), Number>),
    Sweep(Result<(), Number>),
    /// The records written, nearest first, and the number of distances worked out.
    Closest(Result<(Vec<Node>, usize), Number>),
}

impl Call {
    /// The same call at another millisecond; a closest call has none.
    pub fn at(&self, millis: u64) -> Call {
        let mut call = self.clone();
        match &mut call {
            Call::Datagram { now, .. } | Call::PingSent { now, .. } | Call::Sweep { now } => *now = millis,
            Call::Closest { .. } => {}
        }
        call
    }

    /// Its answer where it is refused.
    pub fn refused(&self, number: Number) -> Reply {
        match self {
            Call::Datagram { .. } => Reply::Datagram(Err(number)),
            Call::PingSent { .. } => Reply::PingSent(Err(number)),
            Call::Sweep { .. } => Reply::Sweep(Err(number)),
            Call::Closest { .. } => Reply::Closest(Err(number)),
        }
    }

    pub fn run(&self, table: &mut Table, counters: &mut Counters) -> Reply {
        match self {
            Call::Datagram { now, unix, address, port, signer, datagram } => {
                Reply::Datagram(table.datagram(counters, *now, *unix, address, *port, signer, datagram))
            }
            Call::PingSent { now, key, endpoint, hash } => {
                Reply::PingSent(table.ping_sent(counters, *now, key, endpoint, hash))
            }
            Call::Sweep { now } => Reply::Sweep(table.sweep(counters, *now)),
            Call::Closest { target, room } => {
                let empty = Endpoint { address: Vec::new(), udp: 0, tcp: 0 };
                let mut list = vec![Node { endpoint: empty, key: Vec::new() }; *room];
                let answer = table.closest(&mut list, target);
                Reply::Closest(answer.map(|listed| (list[..listed.count].to_vec(), listed.distances)))
            }
        }
    }
}

impl Reply {
    pub fn number(&self) -> Number {
        match self {
            Reply::Datagram(answer) => number(answer),
            Reply::PingSent(answer) | Reply::Sweep(answer) => number(answer),
            Reply::Closest(answer) => number(answer),
        }
    }

    /// The answer line of the replay: "Each line is answered by its number; after 0 an `rx` adds a
    /// tab and these".
    pub fn text(&self) -> String {
        match self {
            Reply::Datagram(Ok(accepted)) => format!("0\t{}", log::values(accepted)),
            _ => self.number().to_string(),
        }
    }
}

/// What a list of calls on a fresh table gives.
pub struct Run {
    pub replies: Vec<Reply>,
    pub table: Table,
    pub counters: Counters,
}

/// Runs the calls on a fresh table; the number if there is none.
pub fn run(buckets: u64, own_key: &[u8], calls: &[Call]) -> Result<Run, Number> {
    let mut table = Table::init(buckets, own_key)?;
    let mut counters = Counters::default();
    let replies = calls.iter().map(|call| call.run(&mut table, &mut counters)).collect();
    Ok(Run { replies, table, counters })
}
