//! A second, plain implementation of document 01, to compare the proved library and the replay
//! program with. It shares no code with them: the table is plain structs with `VecDeque`s, an answer is
//! document 01's number with its values. Only [`layout`] knows the table's bytes, from docs/LAYOUT.md.
//!
//! Quoted sentences in comments are document 01's, "(001)" marks the discv4 page; L1, A1, T1 .. are
//! the settled readings of docs/DECISIONS.md.
//!
//! | Module | Holds |
//! |---|---|
//! | [`keccak`] | Keccak-256 |
//! | [`rlp`] | strict RLP, read and written |
//! | [`packet`] | the six packets, read and written; join |
//! | [`bucket`] | a table's entry and bucket, and what the rules do to one bucket |
//! | [`table`] | the table and its four calls, the counters |
//! | [`layout`] | the table's bytes, when they are sound, and the calls on them |
//! | [`burst`] | a burst of datagrams, each a call of its own |
//! | [`log`] | log lines, answers, printout: the replay |
//! | [`why`] | why a node is or isn't in the table at a log's end |
//! | [`enode`] | boot lists: enode lines, read and written |
//! | [`calls`] | sequences of calls as values, to compare another implementation call by call |
//! | [`generator`] | seeded random calls, tables and logs |
//!
//! Programs: `replay` (a log in, answers and printout out), `generate` (a seeded log), `call_cases`
//! (seeded cases for the program of that name, with what it must print), `bootnodes` (a boot list in, its
//! nodes out), `why` (the reason for a key), `why_keys` (for every key of a log) and `example_log` (the example of
//! the README).

use std::fs::File;
use std::io::{self, BufRead, BufReader};
use std::process::ExitCode;

pub mod bucket;
pub mod burst;
pub mod calls;
pub mod enode;
pub mod generator;
pub mod keccak;
pub mod layout;
pub mod log;
pub mod low;
pub mod packet;
pub mod rlp;
pub mod table;
pub mod why;

/// An answer number of document 01.
pub type Number = u8;

/// Lower-case hex of any bytes.
pub fn hex(bytes: &[u8]) -> String {
    const DIGITS: &[u8; 16] = b"0123456789abcdef";
    let mut text = String::with_capacity(2 * bytes.len());
    for byte in bytes {
        text.push(DIGITS[usize::from(byte >> 4)] as char);
        text.push(DIGITS[usize::from(byte & 15)] as char);
    }
    text
}

/// A program over the file named by its first argument, or over standard input if there is none (L9).
pub fn program(name: &str, run: fn(&mut dyn BufRead) -> io::Result<()>) -> ExitCode {
    program_at(1, name, run)
}

/// The same for a later argument.
pub fn program_at(at: usize, name: &str, run: impl FnOnce(&mut dyn BufRead) -> io::Result<()>) -> ExitCode {
    let done = match std::env::args_os().nth(at).filter(|path| path != "-") {
        None => run(&mut io::stdin().lock()),
        Some(path) => match File::open(&path) {
            Ok(file) => run(&mut BufReader::new(file)),
            Err(error) => Err(io::Error::other(format!("{}: {error}", path.display()))),
        },
    };
    match done {
        Ok(()) => ExitCode::SUCCESS,
        Err(error) => {
            eprintln!("{name}: {error}");
            ExitCode::FAILURE
        }
    }
}
