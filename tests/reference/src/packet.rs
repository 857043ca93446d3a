//! The six packets, read and written. "Source document 001 decides on packets."

use crate::keccak::keccak256;
use crate::rlp::{self, Item, Kind};
use crate::Number;

/// Address, UDP port and TCP port. The address has 4 or 16 bytes in everything that is read; a value
/// to write may have any length.
#[derive(Clone, Debug, PartialEq, Eq)]
pub struct Endpoint {
    pub address: Vec<u8>,
    pub udp: u16,
    pub tcp: u16,
}

/// Ping's `from`. Document 02 (C-13): an empty address there says "unknown", and both ports are still told.
#[derive(Clone, Debug, PartialEq, Eq)]
pub struct Sender {
    pub address: Option<Vec<u8>>,
    pub udp: u16,
    pub tcp: u16,
}

impl From<Endpoint> for Sender {
    fn from(endpoint: Endpoint) -> Sender {
        Sender { address: Some(endpoint.address), udp: endpoint.udp, tcp: endpoint.tcp }
    }
}

/// The recipient of a Ping or Pong: its third item is "not a field".
#[derive(Clone, Debug, PartialEq, Eq)]
pub struct Recipient {
    pub address: Vec<u8>,
    pub udp: u16,
}

/// "Node: the same and a 64-byte key."
#[derive(Clone, Debug, PartialEq, Eq)]
pub struct Node {
    pub endpoint: Endpoint,
    pub key: Vec<u8>,
}

/// A packet's fields.
#[derive(Clone, Debug, PartialEq, Eq)]
pub enum Packet {
    Ping {
        version: u64,
        from: Sender,
        to: Recipient,
        expiration: u64,
        enr_seq: Option<u64>,
    },
    Pong {
        to: Recipient,
        ping_hash: Vec<u8>,
        expiration: u64,
        enr_seq: Option<u64>,
    },
    FindNode {
        target: Vec<u8>,
        expiration: u64,
    },
    Neighbors {
        nodes: Vec<Node>,
        expiration: u64,
    },
    EnrRequest {
        expiration: u64,
    },
    /// "6 ENRResponse: request-hash, record; it has no expiration."
    EnrResponse {
        request_hash: Vec<u8>,
        record: Vec<u8>,
    },
}

/// hash (32), signature (65), type (1).
pub const HEADER: usize = 98;
/// "at most 1,280 bytes"
pub const LARGEST: usize = 1280;

impl Packet {
    /// Type 1 to 6.
    pub fn number(&self) -> u8 {
        match self {
            Packet::Ping { .. } => 1,
            Packet::Pong { .. } => 2,
            Packet::FindNode { .. } => 3,
            Packet::Neighbors { .. } => 4,
            Packet::EnrRequest { .. } => 5,
            Packet::EnrResponse { .. } => 6,
        }
    }

    pub fn expiration(&self) -> Option<u64> {
        match self {
            Packet::Ping { expiration, .. }
            | Packet::Pong { expiration, .. }
            | Packet::FindNode { expiration, .. }
            | Packet::Neighbors { expiration, .. }
            | Packet::EnrRequest { expiration } => Some(*expiration),
            Packet::EnrResponse { .. } => None,
        }
    }
}

// ---------------------------------------------------------------------------------------- reading

/// 3: "datagram under 98 or over 1,280 bytes"
pub fn check_length(datagram: &[u8]) -> Result<(), Number> {
    if datagram.len() < HEADER || datagram.len() > LARGEST {
        return Err(3);
    }
    Ok(())
}

/// 4: "first 32 bytes differ from Keccak-256 of the rest". For datagrams of a good length.
pub fn check_hash(datagram: &[u8]) -> Result<(), Number> {
    let (hash, rest) = datagram.split_at(32);
    if hash != keccak256(rest) {
        return Err(4);
    }
    Ok(())
}

/// Fields of a datagram of a good length: 8, 9 and 10.
pub fn read(datagram: &[u8]) -> Result<Packet, Number> {
    let number = datagram[HEADER - 1];
    // 8: "type outside 1 to 6"; an unknown type is never parsed (A6)
    if !(1..=6).contains(&number) {
        return Err(8);
    }
    // 9: "data not a canonical list of whole items"; "anything after it [..] is ignored"
    let (outer, _ignored) = rlp::item(&datagram[HEADER..]).ok_or(9)?;
    if outer.kind != Kind::List {
        return Err(9);
    }
    let items = rlp::items(outer.payload).ok_or(9)?;
    // "The items of the outer list, and of each list that is read, must be whole and canonical,
    // else 9": all of them are looked at before any field is, so 9 beats 10 (A1)
    check_lists_read(number, &items).ok_or(9)?;
    // 10: "a field missing or of the wrong kind"
    fields(number, &items).ok_or(10)
}

/// A2: lists that are read: from, to, nodes, and each item of nodes that is a list.
fn check_lists_read(number: u8, items: &[Item]) -> Option<()> {
    let (first, count) = match number {
        1 => (1, 2),     // from, to
        2 | 4 => (0, 1), // to; nodes
        _ => (0, 0),
    };
    let read = items.iter().skip(first).take(count);
    for list in read.filter(|item| item.kind == Kind::List) {
        let inner = rlp::items(list.payload)?;
        if number == 4 {
            for node in inner.iter().filter(|item| item.kind == Kind::List) {
                rlp::items(node.payload)?;
            }
        }
    }
    Some(())
}

/// The known items by their types; items after those are ignored.
fn fields(number: u8, items: &[Item]) -> Option<Packet> {
    let item = |index: usize| items.get(index);
    let number64 = |index: usize| rlp::integer(item(index)?, 8);
    // "A fifth item of Ping (fourth of Pong) is always enr-seq: if it isn't an integer, 10."
    let optional = |index: usize| match item(index) {
        None => Some(None),
        Some(item) => rlp::integer(item, 8).map(Some),
    };
    Some(match number {
        1 => Packet::Ping {
            version: number64(0)?, // "Any version passes"
            from: sender(item(1)?)?,
            to: recipient(item(2)?)?,
            expiration: number64(3)?,
            enr_seq: optional(4)?,
        },
        2 => Packet::Pong {
            to: recipient(item(0)?)?,
            ping_hash: string(item(1)?, &[32])?,
            expiration: number64(2)?,
            enr_seq: optional(3)?,
        },
        3 => Packet::FindNode { target: string(item(0)?, &[64])?, expiration: number64(1)? },
        4 => Packet::Neighbors {
            nodes: list(item(0)?)?.iter().map(node).collect::<Option<Vec<Node>>>()?,
            expiration: number64(1)?,
        },
        5 => Packet::EnrRequest { expiration: number64(0)? },
        _ => {
            let request_hash = string(item(0)?, &[32])?;
            // "A record is a list of at most 300 bytes with its header"; "The inside [..] of a
            // record isn't examined."
            let record = item(1)?;
            if record.kind != Kind::List || record.whole.len() > 300 {
                return None;
            }
            Packet::EnrResponse { request_hash, record: record.whole.to_vec() }
        }
    })
}

/// A string of one of the lengths.
fn string(item: &Item, lengths: &[usize]) -> Option<Vec<u8>> {
    let fits = item.kind == Kind::String && lengths.contains(&item.payload.len());
    fits.then(|| item.payload.to_vec())
}

/// The items of a list that is read.
fn list<'a>(item: &Item<'a>) -> Option<Vec<Item<'a>>> {
    if item.kind != Kind::List {
        return None;
    }
    rlp::items(item.payload)
}

/// "Ports fit 16 bits"
fn port(item: &Item) -> Option<u16> {
    rlp::integer(item, 2).map(|port| port as u16)
}

/// Address, UDP port, TCP port.
fn endpoint_of(address: &Item, udp: &Item, tcp: &Item) -> Option<Endpoint> {
    Some(Endpoint { address: string(address, &[4, 16])?, udp: port(udp)?, tcp: port(tcp)? })
}

/// "Endpoint: exactly address (4 or 16 bytes), UDP port, TCP port."
fn endpoint(item: &Item) -> Option<Endpoint> {
    match &list(item)?[..] {
        [address, udp, tcp] => endpoint_of(address, udp, tcp),
        _ => None,
    }
}

/// C-13: "Reading an endpoint must allow 0, 4 or 16 bytes [..] in Ping's `from` only"
fn sender(item: &Item) -> Option<Sender> {
    let parts = list(item)?;
    let [address, udp, tcp] = &parts[..] else { return None };
    let address = string(address, &[0, 4, 16])?;
    let address = if address.is_empty() { None } else { Some(address) };
    Some(Sender { address, udp: port(udp)?, tcp: port(tcp)? })
}

/// A7: the third item of `to` must be a 16-bit integer, and isn't handed back.
fn recipient(item: &Item) -> Option<Recipient> {
    endpoint(item).map(|endpoint| Recipient { address: endpoint.address, udp: endpoint.udp })
}

fn node(item: &Item) -> Option<Node> {
    match &list(item)?[..] {
        [address, udp, tcp, key] => {
            Some(Node { endpoint: endpoint_of(address, udp, tcp)?, key: string(key, &[64])? })
        }
        _ => None,
    }
}

// ---------------------------------------------------------------------------------------- writing

/// The body (type and data) of a packet, or 20: "value can't be written". Version is written as 4
/// whatever the value says, the third item of `to` as 0, "no extra items".
pub fn body(packet: &Packet) -> Result<Vec<u8>, Number> {
    let mut items = Vec::new();
    match packet {
        Packet::Ping { version: _, from, to, expiration, enr_seq } => {
            items.push(rlp::write_integer(4));
            items.push(rlp::write_list(&write_sender(from)?));
            items.push(rlp::write_list(&write_endpoint(&to.address, to.udp, 0)?));
            items.push(rlp::write_integer(*expiration));
            items.extend(enr_seq.map(rlp::write_integer));
        }
        Packet::Pong { to, ping_hash, expiration, enr_seq } => {
            items.push(rlp::write_list(&write_endpoint(&to.address, to.udp, 0)?));
            items.push(write_string(ping_hash, &[32])?);
            items.push(rlp::write_integer(*expiration));
            items.extend(enr_seq.map(rlp::write_integer));
        }
        Packet::FindNode { target, expiration } => {
            items.push(write_string(target, &[64])?);
            items.push(rlp::write_integer(*expiration));
        }
        Packet::Neighbors { nodes, expiration } => {
            // "Neighbors takes 0 to 12 nodes, more is 20"
            if nodes.len() > 12 {
                return Err(20);
            }
            let mut written = Vec::new();
            for Node { endpoint, key } in nodes {
                let mut parts = write_endpoint(&endpoint.address, endpoint.udp, endpoint.tcp)?;
                parts.push(write_string(key, &[64])?);
                written.push(rlp::write_list(&parts));
            }
            items.push(rlp::write_list(&written));
            items.push(rlp::write_integer(*expiration));
        }
        Packet::EnrRequest { expiration } => items.push(rlp::write_integer(*expiration)),
        Packet::EnrResponse { request_hash, record } => {
            items.push(write_string(request_hash, &[32])?);
            // 20: "a record that isn't one whole list or passes 300 bytes"
            match rlp::item(record) {
                Some((Item { kind: Kind::List, .. }, [])) if record.len() <= 300 => {}
                _ => return Err(20),
            }
            items.push(record.clone());
        }
    }
    let mut body = vec![packet.number()];
    body.extend(rlp::write_list(&items));
    Ok(body)
}

fn write_string(bytes: &[u8], lengths: &[usize]) -> Result<Vec<u8>, Number> {
    if !lengths.contains(&bytes.len()) {
        return Err(20);
    }
    Ok(rlp::write_string(bytes))
}

fn write_endpoint(address: &[u8], udp: u16, tcp: u16) -> Result<Vec<Vec<u8>>, Number> {
    let address = write_string(address, &[4, 16])?;
    Ok(vec![address, rlp::write_integer(udp.into()), rlp::write_integer(tcp.into())])
}

/// C-13: "The writer may write an unknown `from`; any other empty address is still 20."
fn write_sender(from: &Sender) -> Result<Vec<Vec<u8>>, Number> {
    match &from.address {
        Some(address) => write_endpoint(address, from.udp, from.tcp),
        None => Ok(vec![
            rlp::write_string(&[]),
            rlp::write_integer(from.udp.into()),
            rlp::write_integer(from.tcp.into()),
        ]),
    }
}

/// 19: "room shorter than a writable value needs"; "Bytes past what is written stay."
fn put(value: &[u8], room: &mut [u8]) -> Result<usize, Number> {
    let part = room.get_mut(..value.len()).ok_or(19)?;
    part.copy_from_slice(value);
    Ok(value.len())
}

/// Writes the body into `room` and gives its length, or 19 or 20 and writes nothing (A8).
pub fn write(packet: &Packet, room: &mut [u8]) -> Result<usize, Number> {
    put(&body(packet)?, room)
}

/// Hash, signature and body. 20 for "a [..] signature of wrong length, a body to join not of 1 to
/// 1,183 bytes"; the body's content isn't looked at (A8).
pub fn joined(signature: &[u8], body: &[u8]) -> Result<Vec<u8>, Number> {
    if signature.len() != 65 || body.is_empty() || body.len() > LARGEST - 97 {
        return Err(20);
    }
    let rest = [signature, body].concat();
    Ok([&keccak256(&rest)[..], &rest].concat())
}

/// Writes the joined packet into `room` and gives its length, or 19 or 20 and writes nothing.
pub fn join(signature: &[u8], body: &[u8], room: &mut [u8]) -> Result<usize, Number> {
    put(&joined(signature, body)?, room)
}
