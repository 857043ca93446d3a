//! Boot lists (request C-11): enode lines read and written. Quoted sentences are the request's.

use crate::log::lines;
use crate::packet::{Endpoint, Node};
use crate::Number;

/// How the reading of a text ended.
#[derive(Clone, Copy, Debug, PartialEq, Eq)]
pub enum End {
    Complete,
    /// "22 for a line that doesn't fit, with its number"
    Unfit {
        line: usize,
    },
    /// "then 19 for a good line when the list is full"
    Full {
        line: usize,
    },
}

impl End {
    pub fn number(&self) -> Number {
        match self {
            End::Complete => 0,
            End::Unfit { .. } => 22,
            End::Full { .. } => 19,
        }
    }

    /// The line that ended the reading; 0 if none did.
    pub fn line(&self) -> usize {
        match self {
            End::Complete => 0,
            End::Unfit { line } | End::Full { line } => *line,
        }
    }
}

// ---------------------------------------------------------------------------------------- reading

/// A line without its 0A; None for "a line that doesn't fit".
pub fn read_line(line: &[u8]) -> Option<Node> {
    let line = std::str::from_utf8(line).ok()?;
    let (key, place) = line.strip_prefix("enode://")?.split_once('@')?;
    let (address, ports) = place.split_once(':')?;
    let (tcp, udp) = match ports.split_once("?discport=") {
        None => (port(ports)?, port(ports)?),
        Some((tcp, udp)) => (port(tcp)?, port(udp)?),
    };
    // "on reading one that equals the TCP port is refused"
    if ports.contains('?') && udp == tcp {
        return None;
    }
    Some(Node { endpoint: Endpoint { address: dotted(address)?, udp, tcp }, key: bytes(key)? })
}

/// "128 hex digits", which "may be upper case on reading".
fn bytes(digits: &str) -> Option<Vec<u8>> {
    let values: Option<Vec<u8>> = digits.chars().map(|digit| Some(digit.to_digit(16)? as u8)).collect();
    let values = values.filter(|values| values.len() == 128)?;
    Some(values.chunks(2).map(|pair| pair[0] << 4 | pair[1]).collect())
}

/// "a dotted IPv4 address"
fn dotted(text: &str) -> Option<Vec<u8>> {
    let octets: Option<Vec<u8>> = text.split('.').map(|octet| plain(octet)?.parse().ok()).collect();
    octets.filter(|octets| octets.len() == 4)
}

fn port(text: &str) -> Option<u16> {
    plain(text)?.parse().ok()
}

/// "Decimal numbers have no leading zero"; 0 itself is `0`. Digits alone: `parse` takes a sign too.
fn plain(text: &str) -> Option<&str> {
    let digits = text.bytes().all(|byte| byte.is_ascii_digit());
    (digits && (text == "0" || !text.starts_with('0'))).then_some(text)
}

/// The nodes of a text's lines, for a list with room for so many, and how the reading ended: "either ends
/// the reading [..], so earlier records stay written". "Lines end in 0A, which the last may lack on
/// reading; line numbers always count from 1."
pub fn read(room: usize, text: &[u8]) -> (Vec<Node>, End) {
    let mut nodes = Vec::new();
    for (index, line) in lines(text).enumerate() {
        match read_line(line) {
            None => return (nodes, End::Unfit { line: index + 1 }),
            Some(_) if nodes.len() == room => return (nodes, End::Full { line: index + 1 }),
            Some(node) => nodes.push(node),
        }
    }
    (nodes, End::Complete)
}

// ---------------------------------------------------------------------------------------- writing

/// A node's line with its 0A; 20 for an address that isn't of 4 bytes: "A 16-byte address isn't writable".
pub fn line(node: &Node) -> Result<String, Number> {
    let Endpoint { address, udp, tcp } = &node.endpoint;
    let [a, b, c, d] = address[..] else { return Err(20) };
    // "`?discport=` is written only if the ports differ"
    let discport = if udp == tcp { String::new() } else { format!("?discport={udp}") };
    Ok(format!("enode://{}@{a}.{b}.{c}.{d}:{tcp}{discport}\n", crate::hex(&node.key)))
}

/// The lines of a list; 20 if one of its nodes can't be written.
pub fn text(nodes: &[Node]) -> Result<String, Number> {
    nodes.iter().map(line).collect()
}

/// Writes them to the front of a room, and gives their size; 20, then 19, and nothing is written.
pub fn write(nodes: &[Node], room: &mut [u8]) -> Result<usize, Number> {
    let text = text(nodes)?;
    room.get_mut(..text.len()).ok_or(19u8)?.copy_from_slice(text.as_bytes());
    Ok(text.len())
}

// ------------------------------------------------------------------------------------ the program

/// What `bootnodes` prints of one node: first 8 key bytes, address, UDP port, TCP port.
pub fn row(node: &Node) -> String {
    let Endpoint { address, udp, tcp } = &node.endpoint;
    format!("{}\t{}\t{udp}\t{tcp}\n", crate::hex(&node.key[..8]), crate::hex(address))
}
