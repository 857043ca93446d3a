//! Packets written. A body is type and data; [`join`] makes a datagram of a signature and a body. Each
//! function writes to the front of a lent buffer and gives the size, or 19 where the buffer is too short, or
//! 20 where the value can't be written, and writes nothing then. [`in_vec`] writes into a `Vec`.

use crate::{sys, valued, Node, Number};

/// The longest datagram.
pub const LARGEST: usize = 1280;

/// What a function of this module writes, in a `Vec`:
///
/// ```no_run
/// let body = coghammer::write::in_vec(|buf| coghammer::write::enr_request(buf, 1_700_000_020));
/// ```
pub fn in_vec(write: impl FnOnce(&mut [u8]) -> Result<usize, Number>) -> Result<Vec<u8>, Number> {
    let mut bytes = vec![0; LARGEST];
    let size = write(&mut bytes)?;
    bytes.truncate(size);
    Ok(bytes)
}

fn size(code: u32) -> Result<usize, Number> {
    valued(code).map(|size| size as usize)
}

/// Addresses have 4 or 16 bytes; `from` is `None`, or empty, where it is unknown.
#[allow(clippy::too_many_arguments)]
pub fn ping(
    buf: &mut [u8],
    from: Option<&[u8]>,
    from_udp: u16,
    from_tcp: u16,
    to: &[u8],
    to_udp: u16,
    expiration: u64,
    enr_seq: Option<u64>,
) -> Result<usize, Number> {
    size(sys::write_ping(buf, from.unwrap_or(&[]), from_udp, from_tcp, to, to_udp, expiration, enr_seq))
}

/// `ping_hash` is the first 32 bytes of the ping's datagram.
pub fn pong(
    buf: &mut [u8],
    to: &[u8],
    to_udp: u16,
    ping_hash: &[u8],
    expiration: u64,
    enr_seq: Option<u64>,
) -> Result<usize, Number> {
    size(sys::write_pong(buf, to, to_udp, ping_hash, expiration, enr_seq))
}

/// The target is a key of 64 bytes.
pub fn find_node(buf: &mut [u8], target: &[u8], expiration: u64) -> Result<usize, Number> {
    size(sys::write_find_node(buf, target, expiration))
}

/// Which of a reply's nodes each of its Neighbors packets has: of sixteen the first 12, then 4; of none one packet with no node.
pub fn reply_parts(nodes: usize) -> impl Iterator<Item = std::ops::Range<usize>> {
    (0..sys::reply_count(nodes)).map(move |k| {
        let (start, len) = sys::reply_part(nodes, k);
        start..start + len
    })
}

/// At most 12 nodes: see [`reply_parts`].
pub fn neighbors(buf: &mut [u8], nodes: &[Node], expiration: u64) -> Result<usize, Number> {
    let packed: Vec<u8> = nodes.iter().flat_map(packed).collect();
    size(sys::write_neighbors(buf, &packed, expiration))
}

/// Nodes of 85 bytes each: address length 1, address 16, UDP port 2, TCP port 2, key 64; big-endian.
pub fn neighbors_packed(buf: &mut [u8], nodes: &[u8], expiration: u64) -> Result<usize, Number> {
    size(sys::write_neighbors(buf, nodes, expiration))
}

fn packed(node: &Node) -> [u8; 85] {
    let mut bytes = [0; 85];
    bytes[0] = node.endpoint.len;
    bytes[1..17].copy_from_slice(&node.endpoint.address);
    bytes[17..19].copy_from_slice(&node.endpoint.udp.to_be_bytes());
    bytes[19..21].copy_from_slice(&node.endpoint.tcp.to_be_bytes());
    bytes[21..].copy_from_slice(&node.key);
    bytes
}

pub fn enr_request(buf: &mut [u8], expiration: u64) -> Result<usize, Number> {
    size(sys::write_enr_request(buf, expiration))
}

/// The record is one whole RLP list of at most 300 bytes.
pub fn enr_response(buf: &mut [u8], request_hash: &[u8], record: &[u8]) -> Result<usize, Number> {
    size(sys::write_enr_response(buf, request_hash, record))
}

/// The datagram of a signature (65 bytes) and a body (1 to 1,183): their hash, the signature, the body.
pub fn join(buf: &mut [u8], signature: &[u8], body: &[u8]) -> Result<usize, Number> {
    size(sys::join(buf, signature, body))
}
