//! The discv4 library for a host in Rust: a safe face of include/coghammer.h.
//!
//! The host owns sockets, both clocks, random numbers and secp256k1. For each datagram it recovers the
//! signer's key and calls [`Table::datagram`]; the answer says what is due, and [`Packet::read`] has the
//! fields. To send, it writes a body ([`write`]), signs its hash ([`keccak256`]), and joins both
//! ([`write::join`]); after a ping it calls [`Table::ping_sent`] with the datagram's hash. Its first nodes may
//! come from a boot list ([`read_enodes`]).
//!
//! An answer number of document 01 other than 0 is an `Err` with that [`Number`]; nothing lent has changed
//! then but the counters.

#![deny(unsafe_code)]

use std::net::{IpAddr, SocketAddr};

mod boot;
mod burst;
mod low;
mod number;
mod packet;
#[allow(unsafe_code)]
mod sys;
pub mod write;

pub use boot::{enode_text, read_enodes, write_enodes, End, ENODE_LINE};
pub use burst::{Burst, MOST};
pub use low::LowMillis;
pub use number::Number;
pub use packet::{Nodes, Packet};

/// The box clock: milliseconds that never go back.
#[repr(transparent)]
#[derive(Clone, Copy, Debug, PartialEq, Eq, PartialOrd, Ord)]
pub struct MonotonicMillis(pub u64);

/// The packets' clock: Unix seconds, which may jump either way.
#[repr(transparent)]
#[derive(Clone, Copy, Debug, PartialEq, Eq, PartialOrd, Ord)]
pub struct UnixSeconds(pub u64);

/// One count for each answer number: the calls since clearing that gave it, or 4,294,967,295 if more.
#[repr(C)]
#[derive(Clone, Debug, Default, PartialEq, Eq)]
pub struct Counters {
    pub counts: [u32; 22],
}

impl Counters {
    pub fn clear(&mut self) {
        sys::clear(self);
    }
}

/// An IP address, the first `len` bytes of `address`, and two ports.
#[repr(C)]
#[derive(Clone, Copy, Debug, Default, PartialEq, Eq)]
pub struct Endpoint {
    pub len: u8,
    pub address: [u8; 16],
    pub udp: u16,
    pub tcp: u16,
}

impl Endpoint {
    /// None where the address isn't of 4 or 16 bytes.
    pub fn new(address: &[u8], udp: u16, tcp: u16) -> Option<Endpoint> {
        matches!(address.len(), 4 | 16).then(|| Endpoint::of(address, udp, tcp))
    }

    /// The bytes of the IP address.
    pub fn ip(&self) -> &[u8] {
        &self.address[..usize::from(self.len).min(16)]
    }

    /// The address and the UDP port, where a host sends to; None where the address isn't of 4 or 16 bytes.
    pub fn socket_addr(&self) -> Option<SocketAddr> {
        let ip = match *self.ip() {
            [a, b, c, d] => IpAddr::from([a, b, c, d]),
            _ if self.len == 16 => IpAddr::from(self.address),
            _ => return None,
        };
        Some(SocketAddr::new(ip, self.udp))
    }

    /// An endpoint at a socket's address, with this TCP port. An IPv4-mapped address, as a socket for both
    /// families gives it, becomes its 4 bytes: the library compares addresses as bytes.
    pub fn at(address: SocketAddr, tcp: u16) -> Endpoint {
        match address.ip().to_canonical() {
            IpAddr::V4(ip) => Endpoint::of(&ip.octets(), address.port(), tcp),
            IpAddr::V6(ip) => Endpoint::of(&ip.octets(), address.port(), tcp),
        }
    }

    /// Of 4 or 16 bytes.
    fn of(address: &[u8], udp: u16, tcp: u16) -> Endpoint {
        let mut endpoint = Endpoint { len: address.len() as u8, address: [0; 16], udp, tcp };
        endpoint.address[..address.len()].copy_from_slice(address);
        endpoint
    }
}

/// A node record.
#[repr(C)]
#[derive(Clone, Copy, Debug, PartialEq, Eq)]
pub struct Node {
    pub key: [u8; 64],
    pub endpoint: Endpoint,
}

impl Node {
    /// A record of zeros, to make a list of.
    pub const EMPTY: Node =
        Node { key: [0; 64], endpoint: Endpoint { len: 0, address: [0; 16], udp: 0, tcp: 0 } };
}

/// What an accepted datagram asks of the host, or did to the table.
#[derive(Clone, Copy, Debug, PartialEq, Eq)]
pub enum Accepted {
    /// A pong is due, and a ping too if so said.
    Ping {
        ping_due: bool,
    },
    Pong(Standing),
    /// A reply of the closest nodes is due.
    FindNode,
    Neighbors,
    /// A reply with the own record is due.
    EnrRequest,
    EnrResponse,
}

/// The sender of an accepted pong.
#[derive(Clone, Copy, Debug, PartialEq, Eq)]
pub enum Standing {
    /// Was an entry of its bucket, and is now its last.
    Tail,
    /// Took a free entry.
    TookEntry,
    /// Waits: all entries are taken. [`Table::head`] has the one that stands first.
    Waiting,
    /// Waits, whether or not entries are free: two are of its range, which is the first three bytes of a 4-byte
    /// address. Nothing is due.
    RangeFull,
}

/// The first entry of a bucket, and since when a ping is out to it.
#[derive(Clone, Copy, Debug, PartialEq, Eq)]
pub struct Head {
    pub node: Node,
    pub ping_out: Option<MonotonicMillis>,
}

/// What a closest call tells.
#[derive(Clone, Copy, Debug, PartialEq, Eq)]
pub struct Listed {
    /// The nodes that the list received.
    pub count: usize,
    /// The distances to the target that were worked out, at most 31: one for each node seated in the buckets
    /// that were taken. Buckets are taken nearest first, until sixteen nodes are gathered.
    pub distances: usize,
}

/// The numbers of a printout's first row.
#[derive(Clone, Copy, Debug, PartialEq, Eq)]
pub struct State {
    pub clock: MonotonicMillis,
    pub buckets: usize,
    /// The seats that are taken.
    pub entries: usize,
    /// The nodes that wait.
    pub replacements: usize,
}

/// A node of the table, and where it is held.
#[derive(Clone, Copy, Debug, PartialEq, Eq)]
pub struct Held {
    pub node: Node,
    pub rank: Rank,
    /// The logarithmic distance, 1 to 256.
    pub distance: usize,
    /// The place among its bucket's entries or replacements, counted from 1.
    pub place: usize,
}

#[derive(Clone, Copy, Debug, PartialEq, Eq)]
pub enum Rank {
    /// It has a seat.
    Entry,
    /// It waits for one.
    Replacement,
}

/// A table in bytes of its own.
#[derive(Clone, Debug, PartialEq, Eq)]
pub struct Table {
    bytes: Vec<u8>,
}

impl Table {
    const HEADER: usize = 512;
    const BUCKET: usize = 2862;

    /// The bytes that a table of so many buckets takes, 1 to 256.
    pub const fn size(buckets: usize) -> usize {
        Self::HEADER + buckets * Self::BUCKET
    }

    /// A fresh table for the node with this key; 1 for a bucket count outside 1 to 256, 5 for a key that
    /// isn't 64 bytes.
    pub fn new(key: &[u8], buckets: usize) -> Result<Table, Number> {
        // no memory is taken for a count that is refused
        let size = if (1..=256).contains(&buckets) { Table::size(buckets) } else { 0 };
        let mut bytes = vec![0; size];
        done(sys::init(&mut bytes, key, buckets)).map(|()| Table { bytes })
    }

    /// A table in bytes that the host kept. They may be any bytes: a call that finds them unsound
    /// answers 1 and leaves them.
    pub fn from_bytes(bytes: Vec<u8>) -> Table {
        Table { bytes }
    }

    pub fn bytes(&self) -> &[u8] {
        &self.bytes
    }

    pub fn into_bytes(self) -> Vec<u8> {
        self.bytes
    }

    /// A datagram came from `address` and `port`, signed with the key `signer`, which is empty where the
    /// signature recovers none.
    #[allow(clippy::too_many_arguments)]
    pub fn datagram(
        &mut self,
        counters: &mut Counters,
        clock: MonotonicMillis,
        unix: UnixSeconds,
        address: &[u8],
        port: u16,
        signer: &[u8],
        datagram: &[u8],
    ) -> Result<Accepted, Number> {
        accepted(sys::datagram(counters, &mut self.bytes, clock, unix, address, port, signer, datagram))
    }

    /// [`Table::datagram`] of a datagram that a socket received from this address; `signer` is None where the
    /// signature recovers no key.
    pub fn receive(
        &mut self,
        counters: &mut Counters,
        clock: MonotonicMillis,
        unix: UnixSeconds,
        from: SocketAddr,
        signer: Option<&[u8; 64]>,
        datagram: &[u8],
    ) -> Result<Accepted, Number> {
        let from = Endpoint::at(from, 0);
        let signer = signer.map_or(&[][..], |key| key);
        self.datagram(counters, clock, unix, from.ip(), from.udp, signer, datagram)
    }

    /// A ping whose datagram has this hash went out to a node.
    #[allow(clippy::too_many_arguments)]
    pub fn ping_sent(
        &mut self,
        counters: &mut Counters,
        clock: MonotonicMillis,
        key: &[u8],
        address: &[u8],
        udp: u16,
        tcp: u16,
        hash: &[u8],
    ) -> Result<(), Number> {
        done(sys::ping_sent(counters, &mut self.bytes, clock, key, address, udp, tcp, hash))
    }

    /// Removes nodes that didn't answer a ping in time, and fills what is free from those that wait, up to two of
    /// a range.
    pub fn sweep(&mut self, counters: &mut Counters, clock: MonotonicMillis) -> Result<(), Number> {
        done(sys::sweep(counters, &mut self.bytes, clock))
    }

    /// The nodes nearest to the target, nearest first, written to the front of a list of at least sixteen
    /// (else 19).
    pub fn closest_in(&self, list: &mut [Node], target: &[u8]) -> Result<Listed, Number> {
        let value = valued(sys::closest(list, &self.bytes, target))?;
        Ok(Listed { count: value as usize % 256, distances: value as usize / 256 })
    }

    /// The at most sixteen nodes nearest to the target, nearest first.
    pub fn closest(&self, target: &[u8]) -> Result<Vec<Node>, Number> {
        let mut list = vec![Node::EMPTY; 16];
        let listed = self.closest_in(&mut list, target)?;
        list.truncate(listed.count);
        Ok(list)
    }

    /// The first entry of the bucket that a key falls into.
    pub fn head(&self, key: &[u8]) -> Result<Option<Head>, Number> {
        let (mut node, mut ping) = (Node::EMPTY, [0; 2]);
        done(sys::head(&self.bytes, key, &mut node, &mut ping))?;
        let ping_out = (ping[0] == 1).then_some(MonotonicMillis(ping[1]));
        Ok((node.endpoint.len != 0).then_some(Head { node, ping_out }))
    }

    /// The node with this key, and where it is held.
    pub fn find(&self, key: &[u8]) -> Result<Option<Held>, Number> {
        let (mut node, mut told) = (Node::EMPTY, [0; 3]);
        done(sys::find(&self.bytes, key, &mut node, &mut told))?;
        let rank = match told[0] {
            0 => return Ok(None),
            1 => Rank::Entry,
            _ => Rank::Replacement,
        };
        Ok(Some(Held { node, rank, distance: told[1] as usize, place: told[2] as usize }))
    }

    /// The clock, and how much the table holds; 1 where it isn't sound.
    pub fn state(&self) -> Result<State, Number> {
        let mut told = [0; 4];
        done(sys::state(&self.bytes, &mut told))?;
        let [clock, buckets, entries, replacements] = told;
        Ok(State {
            clock: MonotonicMillis(clock),
            buckets: buckets as usize,
            entries: entries as usize,
            replacements: replacements as usize,
        })
    }

    /// Room for the printout of a table of so many buckets, whatever it holds.
    pub const fn printout_size(buckets: usize) -> usize {
        41 + buckets * 20 * 137
    }

    /// Writes the printout to the front of a buffer of at least [`Table::printout_size`] bytes (else 19); how
    /// many it takes.
    pub fn printout_in(&self, buf: &mut [u8]) -> Result<usize, Number> {
        let mut size = [0];
        done(sys::print(buf, &self.bytes, &mut size)).map(|()| size[0] as usize)
    }

    /// The printout; 1 where the table isn't sound.
    pub fn printout(&self) -> Result<String, Number> {
        let mut text = vec![0; Table::printout_size(self.state()?.buckets)];
        let size = self.printout_in(&mut text)?;
        text.truncate(size);
        Ok(text.into_iter().map(char::from).collect())
    }
}

/// The Keccak-256 of a message: a host signs that of a body.
pub fn keccak256(message: &[u8]) -> [u8; 32] {
    let mut hash = [0; 32];
    sys::keccak256(message, &mut hash);
    hash
}

fn done(number: u8) -> Result<(), Number> {
    if number == 0 {
        Ok(())
    } else {
        Err(Number(number))
    }
}

/// The answer to a datagram.
fn accepted(code: u32) -> Result<Accepted, Number> {
    let value = valued(code)?;
    let (kind, outcome) = (value & 255, value >> 8);
    Ok(match kind {
        1 => Accepted::Ping { ping_due: outcome == 1 },
        2 => Accepted::Pong(match outcome {
            0 => Standing::Tail,
            1 => Standing::TookEntry,
            2 => Standing::Waiting,
            _ => Standing::RangeFull,
        }),
        3 => Accepted::FindNode,
        4 => Accepted::Neighbors,
        5 => Accepted::EnrRequest,
        _ => Accepted::EnrResponse,
    })
}

/// The value above an answer number.
fn valued(code: u32) -> Result<u32, Number> {
    done(code as u8).map(|()| code >> 8)
}
