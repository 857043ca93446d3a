//! Replays a log: the file named by the first argument, or standard input if there is none (L9).

use std::io::{self, BufRead, BufWriter, Write};
use std::process::ExitCode;

use reference::log::Replay;
use reference::program;

fn run(input: &mut dyn BufRead) -> io::Result<()> {
    let mut output = BufWriter::new(io::stdout().lock());
    let mut replay = Replay::default();
    let mut line = Vec::new();
    while input.read_until(b'\n', &mut line)? > 0 {
        let answer = replay.line(line.strip_suffix(b"\n").unwrap_or(&line));
        writeln!(output, "{answer}")?;
        line.clear();
    }
    output.write_all(replay.printout().as_bytes())?;
    output.flush()
}

fn main() -> ExitCode {
    program("replay", run)
}
