//! The nodes of a boot list, a row each, and how it ended: the file named by the first argument, or
//! standard input if there is none.

use std::io::{self, BufRead, BufWriter, Write};
use std::process::ExitCode;

use reference::{enode, program};

fn run(input: &mut dyn BufRead) -> io::Result<()> {
    let mut output = BufWriter::new(io::stdout().lock());
    let mut count = 0;
    let mut line = Vec::new();
    while input.read_until(b'\n', &mut line)? > 0 {
        let Some(node) = enode::read_line(line.strip_suffix(b"\n").unwrap_or(&line)) else {
            writeln!(output, "22\t{}", count + 1)?;
            return output.flush();
        };
        output.write_all(enode::row(&node).as_bytes())?;
        count += 1;
        line.clear();
    }
    writeln!(output, "complete\t{count}")?;
    output.flush()
}

fn main() -> ExitCode {
    program("bootnodes", run)
}
