//! Logs: lines of calls, damaged lines and `own` lines, with what they cover.

use super::calls::Calls;
use super::coverage::Coverage;
use super::random::Random;
use crate::bucket::Bucket;
use crate::calls::Call;
use crate::hex;
use crate::log::{Replay, LONGEST_LINE};

/// What the caller may fix; the seed decides the rest.
#[derive(Default)]
pub struct Options {
    /// B of the first good `own` line; else 1 to 16.
    pub buckets: Option<u64>,
    /// How many keys the nodes are drawn from; else 4,096.
    pub keys: Option<usize>,
    /// How many of 100 lines are damaged; else 0 to 30. With 0 the log begins with a good `own` line
    /// and ends in 0A.
    pub damage: Option<usize>,
}

/// The line of a call, without its 0A. A log has no closest calls.
pub fn line(call: &Call) -> Vec<u8> {
    let text = match call {
        Call::Datagram { now, unix, address, port, signer, datagram } => {
            let signer = if signer.is_empty() { "-".to_string() } else { hex(signer) };
            format!("rx\t{now}\t{unix}\t{}\t{port}\t{signer}\t{}", hex(address), hex(datagram))
        }
        Call::PingSent { now, key, endpoint, hash } => {
            let address = hex(&endpoint.address);
            let (udp, tcp) = (endpoint.udp, endpoint.tcp);
            format!("sent\t{now}\t{}\t{address}\t{udp}\t{tcp}\t{}", hex(key), hex(hash))
        }
        Call::Sweep { now } => format!("sweep\t{now}"),
        Call::Closest { .. } => unreachable!("a log has no closest calls"),
    };
    text.into_bytes()
}

pub fn own_line(buckets: u64, key: &[u8]) -> Vec<u8> {
    format!("own\t{buckets}\t{}", hex(key)).into_bytes()
}

/// A log of `count` lines.
pub fn log(seed: u64, count: usize, options: &Options) -> (Vec<u8>, Coverage) {
    let mut calls = Calls::new(seed, options.keys.unwrap_or(4096), false);
    let damage = options.damage.unwrap_or_else(|| calls.random.below(31));
    let mut maker = Maker { replay: Replay::default(), log: Vec::new(), coverage: Coverage::default() };
    let mut left = count;
    let mut emit = |maker: &mut Maker, line: &[u8]| {
        if left > 0 {
            left -= 1;
            maker.emit(line);
        }
        left > 0
    };

    // lines before the `own`
    if damage > 0 && calls.random.chance(40) {
        for _ in 0..calls.random.between(1, 6) {
            let heard = calls.random.chance(40);
            let call = line(&if heard { calls.from_a_stranger() } else { calls.next(None) });
            let text = match calls.random.below(4) {
                0 => call,
                1 => damaged_line(&mut calls.random, &call),
                2 => faulty_own(&mut calls.random, count),
                _ => long_line(&mut calls.random, LONGEST_LINE + 1),
            };
            emit(&mut maker, &text);
        }
    }
    let buckets = options.buckets.unwrap_or_else(|| calls.random.between(1, 16));
    let own = own_line(buckets, &calls.peers.own);
    let mut more = emit(&mut maker, &own);

    while more {
        let call = calls.next(maker.replay.table.as_ref());
        let mut text = line(&call);
        if calls.random.chance(damage) {
            text = match calls.random.below(20) {
                0 => {
                    let buckets = calls.random.between(0, 17);
                    own_line(buckets, &calls.peers.own)
                }
                1 => {
                    let length = LONGEST_LINE - 1 + calls.random.below(3);
                    long_line(&mut calls.random, length)
                }
                2 if calls.random.chance(10) => {
                    let length = calls.random.between(3002, 200_000) as usize;
                    long_line(&mut calls.random, length)
                }
                _ => damaged_line(&mut calls.random, &text),
            };
        }
        more = emit(&mut maker, &text);
    }
    // "A last line without 0A is read too"
    if damage > 0 && calls.random.chance(30) {
        maker.log.pop();
    }
    (maker.log, maker.coverage)
}

/// Collects lines and replays them at once.
struct Maker {
    replay: Replay,
    log: Vec<u8>,
    coverage: Coverage,
}

impl Maker {
    /// Adds a line without an 0A in it.
    fn emit(&mut self, line: &[u8]) {
        self.coverage.before(&self.replay, line);
        let answer = self.replay.line(line);
        assert!(
            self.replay.table.iter().flat_map(|table| &table.buckets).all(Bucket::keeps_ranges),
            "{answer}"
        );
        self.coverage.after(&self.replay, line, &answer);
        self.log.extend(line);
        self.log.push(b'\n');
    }
}

/// An `own` line with a bad B, key or form. A well-formed one ends the log's chance of a table, so
/// in long logs they are rare.
fn faulty_own(random: &mut Random, count: usize) -> Vec<u8> {
    let key = random.bytes(64);
    if random.chance(if count <= 100 { 60 } else { 8 }) {
        return match random.below(4) {
            0 => own_line(*random.pick(&[0, 17, 256, 257, u64::MAX]), &key),
            1 => own_line(17, &key[..63]),
            2 => own_line(16, &key[..*random.pick(&[1, 32, 63])]),
            _ => own_line(1, &[&key[..], &[0]].concat()),
        };
    }
    let key = hex(&key);
    let text = match random.below(8) {
        0 => format!("own\t01\t{key}"),
        1 => format!("own\t18446744073709551616\t{key}"),
        2 => "own\t16\t-".to_string(),
        3 => format!("own\t16\t{key}\t"),
        4 => format!("own\t16\t{key}\r"),
        5 => format!("own\t16\t{}", key.to_uppercase()),
        6 => format!("Own\t16\t{key}"),
        _ => format!("own\t16\t{key}{}", "00".repeat(1500)),
    };
    text.into_bytes()
}

/// A line of exactly this length, at least 300, that is well-formed but for the length.
fn long_line(random: &mut Random, length: usize) -> Vec<u8> {
    let ms = random.between(10, 1_000_000_000);
    let (data, hash) = (hex(&random.bytes(99)), hex(&random.bytes(32)));
    let (before, after) = match random.below(3) {
        0 => (format!("rx\t{ms}\t1\t"), format!("\t1\t-\t{data}")),
        1 => (format!("rx\t{ms}\t1\t7f000001\t1\t-\t"), String::new()),
        _ => (format!("sent\t{ms}\t"), format!("\t7f000001\t1\t1\t{hash}")),
    };
    // one digit more in the time leaves an even number of hex digits
    let odd = (length - before.len() - after.len()) % 2 == 1;
    let before = if odd { before.replacen('\t', "\t1", 1) } else { before };
    let digits = length - before.len() - after.len();
    format!("{before}{}{after}", hex(&random.bytes(digits / 2))).into_bytes()
}

/// A line changed in one place. Some changes leave it well-formed.
pub fn damaged_line(random: &mut Random, line: &[u8]) -> Vec<u8> {
    let mut fields: Vec<Vec<u8>> = line.split(|byte| *byte == b'\t').map(<[u8]>::to_vec).collect();
    let index = random.below(fields.len());
    let length = fields[index].len();
    let at = random.below(length.max(1)).min(length.saturating_sub(1));
    match random.below(26) {
        // hex and decimals
        0 => fields[index].make_ascii_uppercase(),
        1 => {
            fields[index].pop();
        }
        2 => fields[index].clear(),
        3 => fields[index].insert(0, b'0'),
        4 => fields[index] = b"00".to_vec(),
        5 => fields[index].insert(0, *random.pick(b"+- ")),
        6 => fields[index].push(*random.pick(b" \r\0.g_")),
        7 => {
            fields[index][at] =
                *random.pick(&[0, 0x0d, 0x20, 0x2f, 0x3a, 0x40, 0x47, 0x60, 0x67, 0x7f, 0x80, 0xff])
        }
        8 => fields[index] = b"-".to_vec(),
        // not the box clock, which would stay there
        9 if index != 1 => fields[index] = b"18446744073709551615".to_vec(),
        9 | 10 => fields[index] = b"18446744073709551616".to_vec(),
        11 => fields[index] = b"99999999999999999999999".to_vec(),
        12 => fields[index] = b"65535".to_vec(),
        13 => fields[index] = b"65536".to_vec(),
        14 => fields[index] = b"0".to_vec(),
        // fields
        15 => {
            fields.remove(index);
        }
        16 => {
            let copy = fields[index].clone();
            fields.insert(index, copy);
        }
        17 => fields.insert(index, Vec::new()),
        18 => fields.push(Vec::new()),
        19 => {
            let other = random.below(fields.len());
            fields.swap(index, other);
        }
        20 => {
            fields[0] = random
                .pick(&["rx", "sent", "sweep", "own", "RX", "rxx", "r", "send", "#"])
                .as_bytes()
                .to_vec()
        }
        // whole lines
        21 => return Vec::new(),
        22 => return line[..random.below(line.len())].to_vec(),
        23 => return [line, b"\r"].concat(),
        24 => return fields.join(&b' '),
        _ => {
            let length = random.below(40);
            let mut bytes = random.bytes(length);
            bytes.retain(|byte| *byte != b'\n');
            return bytes;
        }
    }
    fields.join(&b'\t')
}
