//! Document 01's "Log and printout": lines read and answered, the table printed.

use crate::bucket::{Entry, PingState, PongOutcome};
use crate::calls::Call;
use crate::hex;
use crate::keccak::keccak256;
use crate::packet::{Endpoint, Packet};
use crate::table::{distance, log_distance, number, Accepted, Counters, Outcome, Table};

/// "at most 3,000 bytes without the 0A"
pub const LONGEST_LINE: usize = 3000;

/// A well-formed line.
pub enum Line {
    Own { buckets: u64, key: Vec<u8> },
    Call(Call),
}

// ---------------------------------------------------------------------------------------- reading

/// A line without its 0A; None for "a line of any other form" (21).
pub fn read(line: &[u8]) -> Option<Line> {
    if line.len() > LONGEST_LINE {
        return None;
    }
    // "fields are parted by one tab"
    let fields: Vec<&[u8]> = line.split(|byte| *byte == b'\t').collect();
    match &fields[..] {
        // "`own`, B, key."
        [b"own", buckets, key] => Some(Line::Own { buckets: decimal(buckets)?, key: bytes(key)? }),
        // "`rx`, ms, Unix seconds, address, port, signer or `-`, datagram."
        [b"rx", ms, unix, address, port, signer, datagram] => Some(Line::Call(Call::Datagram {
            now: decimal(ms)?,
            unix: decimal(unix)?,
            address: bytes(address)?,
            port: decimal16(port)?,
            signer: if *signer == b"-" { Vec::new() } else { bytes(signer)? },
            datagram: bytes(datagram)?,
        })),
        // "`sent`, ms, key, address, UDP, TCP, hash."
        [b"sent", ms, key, address, udp, tcp, hash] => Some(Line::Call(Call::PingSent {
            now: decimal(ms)?,
            key: bytes(key)?,
            endpoint: Endpoint { address: bytes(address)?, udp: decimal16(udp)?, tcp: decimal16(tcp)? },
            hash: bytes(hash)?,
        })),
        // "`sweep`, ms."
        [b"sweep", ms] => Some(Line::Call(Call::Sweep { now: decimal(ms)? })),
        _ => None,
    }
}

/// "decimals have no leading zero and fit 64 bits"; 0 itself is `0` (L3).
fn decimal(field: &[u8]) -> Option<u64> {
    if field.is_empty() || (field[0] == b'0' && field.len() > 1) {
        return None;
    }
    field.iter().try_fold(0u64, |value, byte| {
        let digit = (*byte as char).to_digit(10)?;
        value.checked_mul(10)?.checked_add(digit.into())
    })
}

/// "ports 16"
fn decimal16(field: &[u8]) -> Option<u16> {
    decimal(field)?.try_into().ok()
}

/// "hex is lower case, whole bytes, never empty"
fn bytes(field: &[u8]) -> Option<Vec<u8>> {
    fn digit(byte: u8) -> Option<u8> {
        match byte {
            b'0'..=b'9' => Some(byte - b'0'),
            b'a'..=b'f' => Some(byte - b'a' + 10),
            _ => None,
        }
    }
    if field.is_empty() || field.len() % 2 == 1 {
        return None;
    }
    field.chunks(2).map(|pair| Some(digit(pair[0])? << 4 | digit(pair[1])?)).collect()
}

// ------------------------------------------------------------------------------------- the replay

/// The state between two lines.
#[derive(Default)]
pub struct Replay {
    /// A well-formed `own` was read, accepted or not.
    own_read: bool,
    /// The table of the accepted `own`.
    pub table: Option<Table>,
    pub counters: Counters,
}

impl Replay {
    /// The answer to one line, neither with its 0A.
    pub fn line(&mut self, line: &[u8]) -> String {
        match read(line) {
            // "A line of any other form, or an `own` after any well-formed one, gets 21;
            None => "21".to_string(),
            Some(Line::Own { .. }) if self.own_read => "21".to_string(),
            Some(Line::Own { buckets, key }) => {
                self.own_read = true;
                // "B outside 1 to 16 gets 1."
                let answer = if buckets > 16 { Err(1) } else { Table::init(buckets, &key) };
                let number = number(&answer);
                self.table = answer.ok();
                number.to_string()
            }
            // else a call line before an accepted `own` gets 1."
            Some(Line::Call(call)) => match &mut self.table {
                None => "1".to_string(),
                Some(table) => call.run(table, &mut self.counters).text(),
            },
        }
    }

    /// "Then, if an `own` was accepted, the printout".
    pub fn printout(&self) -> String {
        self.table.as_ref().map_or(String::new(), printout)
    }
}

/// The lines of a log. "Lines end in 0A"; "A last line without 0A is read too", if it has a byte (L4).
pub fn lines(log: &[u8]) -> impl Iterator<Item = &[u8]> {
    log.split_inclusive(|byte| *byte == b'\n').map(|line| line.strip_suffix(b"\n").unwrap_or(line))
}

/// The whole output for a log: "Each line is answered by its number", then the printout.
pub fn replay(log: &[u8]) -> String {
    let mut replay = Replay::default();
    let mut output = String::new();
    for line in lines(log) {
        output += &replay.line(line);
        output.push('\n');
    }
    output + &replay.printout()
}

// --------------------------------------------------------------------------------------- printing

/// What "after 0 an `rx` adds", parted by tabs.
pub fn values(accepted: &Accepted) -> String {
    match (&accepted.outcome, &accepted.packet) {
        // "ping `pong`, then `ping` if due;
        (Outcome::Ping { ping_due: false }, _) => "pong".to_string(),
        (Outcome::Ping { ping_due: true }, _) => "pong\tping".to_string(),
        // pong `tail` (was seated), `seat` (now seated), or `wait`, the head's first 8 key bytes,
        // `quiet` or its millisecond; (C-16: "`wait` alone" where the range has two seats)
        (Outcome::Pong(PongOutcome::Tail), _) => "tail".to_string(),
        (Outcome::Pong(PongOutcome::Seat), _) => "seat".to_string(),
        (Outcome::Pong(PongOutcome::RangeFull), _) => "wait".to_string(),
        (Outcome::Pong(PongOutcome::Wait { head, ping }), _) => {
            format!("wait\t{}\t{}", hex(&head.key[..8]), ping_text(ping))
        }
        // the others `find`, `nodes`, `enr`, `record`."
        (Outcome::Other, Packet::FindNode { .. }) => "find".to_string(),
        (Outcome::Other, Packet::Neighbors { .. }) => "nodes".to_string(),
        (Outcome::Other, Packet::EnrRequest { .. }) => "enr".to_string(),
        (Outcome::Other, _) => "record".to_string(),
    }
}

/// "`quiet` or the millisecond"
fn ping_text(ping: &PingState) -> String {
    match ping {
        PingState::Quiet => "quiet".to_string(),
        PingState::Out(since) => since.to_string(),
    }
}

/// "Fields: buckets, clock, seats, waiting; then distance, place, first 8 key bytes, address, ports,
/// last seen, proof (`-` if none), `quiet` or the millisecond."
pub fn printout(table: &Table) -> String {
    let seats: usize = table.buckets.iter().map(|bucket| bucket.entries.len()).sum();
    let waiting: usize = table.buckets.iter().map(|bucket| bucket.replacements.len()).sum();
    let mut text = format!("table\t{}\t{}\t{seats}\t{waiting}\n", table.buckets.len(), table.clock);
    // "buckets rising, in each the seats from the head, then its `wait` lines, places counted from 1"
    for bucket in &table.buckets {
        for (place, entry) in bucket.entries.iter().enumerate() {
            text += &entry_line("seat", &table.own, place + 1, entry);
        }
        for (place, entry) in bucket.replacements.iter().enumerate() {
            text += &entry_line("wait", &table.own, place + 1, entry);
        }
    }
    text
}

fn entry_line(word: &str, own: &[u8; 32], place: usize, entry: &Entry) -> String {
    let log_distance = log_distance(&distance(own, &keccak256(&entry.key)));
    format!(
        "{word}\t{log_distance}\t{place}\t{}\t{}\t{}\t{}\t{}\t{}\t{}\n",
        hex(&entry.key[..8]),
        hex(&entry.endpoint.address),
        entry.endpoint.udp,
        entry.endpoint.tcp,
        entry.last_seen,
        entry.proof.map_or("-".to_string(), |proof| proof.to_string()),
        ping_text(&entry.ping),
    )
}
