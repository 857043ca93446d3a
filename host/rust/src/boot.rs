//! Boot lists: a node a line, `enode://`, 128 hex digits, `@`, a dotted IPv4 address, `:`, the TCP port, and
//! `?discport=` and the UDP port if that differs. A line ends in 0A, which the last may lack on reading.

use crate::{done, sys, Node, Number};

/// The most bytes of a line, with its 0A.
pub const ENODE_LINE: usize = 174;

/// How the reading of a boot list ended. Lines count from 1.
#[derive(Clone, Copy, Debug, PartialEq, Eq)]
pub enum End {
    /// Every line is a node of the list.
    Complete,
    /// This line doesn't fit.
    Unfit { line: u64 },
    /// This line fits, and the list is full.
    Full { line: u64 },
}

impl End {
    /// 0, 22 or 19.
    pub fn number(self) -> Number {
        match self {
            End::Complete => Number::DONE,
            End::Unfit { .. } => Number::NOT_ENODE,
            End::Full { .. } => Number::SHORT_ROOM,
        }
    }
}

/// Writes the nodes of a text's lines to the front of a list, up to the first line that ends the reading;
/// how many they are, and how it ended. The records after them stay as they were.
pub fn read_enodes(list: &mut [Node], text: &[u8]) -> (usize, End) {
    let mut told = [0; 3];
    sys::read_enodes(list, text, &mut told);
    let [count, number, line] = told;
    let end = match number {
        0 => End::Complete,
        22 => End::Unfit { line },
        _ => End::Full { line },
    };
    (count as usize, end)
}

/// Writes the lines of the nodes to the front of a buffer and gives their size; 20 where a node's address
/// isn't of 4 bytes, 19 where the buffer is too short, and nothing is written then.
pub fn write_enodes(buf: &mut [u8], nodes: &[Node]) -> Result<usize, Number> {
    let mut size = [0];
    done(sys::write_enodes(buf, nodes, &mut size)).map(|()| size[0] as usize)
}

/// The lines of the nodes.
pub fn enode_text(nodes: &[Node]) -> Result<Vec<u8>, Number> {
    let mut text = vec![0; nodes.len() * ENODE_LINE];
    let size = write_enodes(&mut text, nodes)?;
    text.truncate(size);
    Ok(text)
}
