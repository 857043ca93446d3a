//! `why KEY [LOG]`: why the node with this key is or isn't in the table at the log's end (C-17); standard input if LOG is
//! `-` or missing. A text that is no key is answered by 5, and the log isn't opened.

use std::io::{self, BufRead};
use std::process::ExitCode;

use reference::program_at;
use reference::why::{key, Why};

fn run(input: &mut dyn BufRead, key: &[u8]) -> io::Result<()> {
    let mut why = Why::default();
    let mut line = Vec::new();
    while input.read_until(b'\n', &mut line)? > 0 {
        why.line(line.strip_suffix(b"\n").unwrap_or(&line));
        line.clear();
    }
    println!("{}", why.reason(key));
    Ok(())
}

fn main() -> ExitCode {
    let text = std::env::args_os().nth(1).unwrap_or_default();
    match key(text.as_encoded_bytes()) {
        Ok(key) => program_at(2, "why", |input| run(input, &key)),
        Err(number) => {
            println!("{number}");
            ExitCode::SUCCESS
        }
    }
}
