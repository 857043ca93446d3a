//! `generate SEED LINES [--buckets B] [--keys N] [--damage PERCENT]`: writes a log of LINES lines to
//! standard output, the same for the same arguments, and what it covers to standard error.

use std::io::{self, Write};
use std::process::ExitCode;

use reference::generator::logs::{log, Options};

const USAGE: &str = "usage: generate SEED LINES [--buckets B] [--keys N] [--damage PERCENT]";

fn arguments() -> Option<(u64, usize, Options)> {
    let mut arguments = std::env::args().skip(1);
    let seed = arguments.next()?.parse().ok()?;
    let lines = arguments.next()?.parse().ok()?;
    let mut options = Options::default();
    while let Some(name) = arguments.next() {
        let value = arguments.next()?;
        match name.as_str() {
            "--buckets" => options.buckets = Some(value.parse().ok()?),
            "--keys" => options.keys = Some(value.parse().ok()?),
            "--damage" => options.damage = Some(value.parse().ok()?),
            _ => return None,
        }
    }
    Some((seed, lines, options))
}

fn main() -> ExitCode {
    let Some((seed, lines, options)) = arguments() else {
        eprintln!("{USAGE}");
        return ExitCode::FAILURE;
    };
    let (log, coverage) = log(seed, lines, &options);
    eprint!("{coverage}");
    match io::stdout().write_all(&log) {
        Ok(()) => ExitCode::SUCCESS,
        Err(error) => {
            eprintln!("generate: {error}");
            ExitCode::FAILURE
        }
    }
}
