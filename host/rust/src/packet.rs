//! The fields of a datagram's packet.

use crate::{sys, Node, Number};

/// A packet with its fields; byte strings are parts of the datagram.
#[derive(Clone, Copy, Debug, PartialEq, Eq)]
pub enum Packet<'a> {
    Ping {
        version: u64,
        /// The address of the sender; `None` where it is unknown.
        from: Option<&'a [u8]>,
        from_udp: u16,
        from_tcp: u16,
        to: &'a [u8],
        to_udp: u16,
        expiration: u64,
        enr_seq: Option<u64>,
    },
    Pong {
        to: &'a [u8],
        to_udp: u16,
        ping_hash: &'a [u8],
        expiration: u64,
        enr_seq: Option<u64>,
    },
    FindNode {
        target: &'a [u8],
        expiration: u64,
    },
    Neighbors {
        nodes: Nodes<'a>,
        expiration: u64,
    },
    EnrRequest {
        expiration: u64,
    },
    EnrResponse {
        request_hash: &'a [u8],
        record: &'a [u8],
    },
}

/// The nodes of a Neighbors.
#[derive(Clone, Copy, Debug, PartialEq, Eq)]
pub struct Nodes<'a> {
    datagram: &'a [u8],
    start: usize,
    len: usize,
}

impl Nodes<'_> {
    pub fn count(&self) -> usize {
        sys::node_count(self.datagram, self.start, self.len)
    }

    /// Node `n`, counted from 0.
    pub fn get(&self, n: usize) -> Option<Node> {
        (n < self.count()).then(|| {
            let mut node = Node::EMPTY;
            sys::node_at(self.datagram, self.start, self.len, n, &mut node);
            node
        })
    }

    pub fn iter(&self) -> impl Iterator<Item = Node> + '_ {
        (0..self.count()).filter_map(|n| self.get(n))
    }
}

// The places of the fields, as include/coghammer.h names them; a byte string takes two, its start in the
// datagram and its length.
const TYPE: usize = 0;
const VERSION: usize = 1;
const EXPIRATION: usize = 2;
const HAS_ENR_SEQ: usize = 3;
const ENR_SEQ: usize = 4;
const FROM: usize = 5;
const FROM_UDP: usize = 7;
const FROM_TCP: usize = 8;
const TO: usize = 9;
const TO_UDP: usize = 11;
const HASH: usize = 12;
const TARGET: usize = 14;
const NODES: usize = 16;
const RECORD: usize = 18;

impl<'a> Packet<'a> {
    /// The fields of a datagram, by its type and data alone: 8, 9 or 10 where it has none. A host reads those
    /// of a datagram that [`crate::Table::datagram`] accepted.
    pub fn read(datagram: &'a [u8]) -> Result<Packet<'a>, Number> {
        let mut fields = [0; 20];
        crate::done(sys::packet(datagram, &mut fields))?;
        let part = |place: usize| {
            let (start, len) = (fields[place] as usize, fields[place + 1] as usize);
            &datagram[start..start + len]
        };
        let expiration = fields[EXPIRATION];
        let enr_seq = (fields[HAS_ENR_SEQ] == 1).then_some(fields[ENR_SEQ]);
        let to_udp = fields[TO_UDP] as u16;
        Ok(match fields[TYPE] {
            1 => Packet::Ping {
                version: fields[VERSION],
                from: (fields[FROM + 1] != 0).then(|| part(FROM)),
                from_udp: fields[FROM_UDP] as u16,
                from_tcp: fields[FROM_TCP] as u16,
                to: part(TO),
                to_udp,
                expiration,
                enr_seq,
            },
            2 => Packet::Pong { to: part(TO), to_udp, ping_hash: part(HASH), expiration, enr_seq },
            3 => Packet::FindNode { target: part(TARGET), expiration },
            4 => {
                let (start, len) = (fields[NODES] as usize, fields[NODES + 1] as usize);
                Packet::Neighbors { nodes: Nodes { datagram, start, len }, expiration }
            }
            5 => Packet::EnrRequest { expiration },
            _ => Packet::EnrResponse { request_hash: part(HASH), record: part(RECORD) },
        })
    }
}
