//! `hashing LOG`: the hashing that a log's lines make necessary, as lines `LENGTH COUNT`: how many messages
//! of each length. A keyed call hashes its key, a datagram of the right length also its part after the
//! hash, `own` its key. The table that the lines lead to is sound, so no held key is hashed again.

use std::collections::BTreeMap;
use std::io::{self, BufRead};

use reference::calls::Call;
use reference::log::{read, Line, Replay};

const KEY: usize = 64;

fn main() -> io::Result<()> {
    let path = std::env::args_os().nth(1).expect("usage: hashing LOG");
    let mut input = io::BufReader::new(std::fs::File::open(path)?);
    let mut replay = Replay::default();
    let mut counts: BTreeMap<usize, u64> = BTreeMap::new();
    let mut line = Vec::new();
    while input.read_until(b'\n', &mut line)? > 0 {
        let text = line.strip_suffix(b"\n").unwrap_or(&line);
        let keys = match (read(text), &replay.table) {
            (Some(Line::Own { .. }), None) => 1,
            (Some(Line::Call(call)), Some(table)) => match call {
                Call::Datagram { now, signer, datagram, .. } => {
                    if now >= table.clock && (98..=1280).contains(&datagram.len()) {
                        *counts.entry(datagram.len() - 32).or_default() += 1;
                    }
                    u64::from(signer.len() == KEY)
                }
                Call::PingSent { key, .. } => u64::from(key.len() == KEY),
                Call::Sweep { .. } | Call::Closest { .. } => 0,
            },
            _ => 0,
        };
        *counts.entry(KEY).or_default() += keys;
        replay.line(text);
        line.clear();
    }
    for (length, count) in counts {
        println!("{length} {count}");
    }
    Ok(())
}
