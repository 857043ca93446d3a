//! `why_keys LOG`: a row for each key that the log names or mentions, for the own one and for a stranger: the key, the
//! cases of C-17 that it shows (parted by `;`), the reason. `why_keys LOG --cuts`: a row for each case that is shown behind
//! some line, with the first such line. `why_keys --cases`: the names of all cases.

use std::io::{self, BufRead, Write};
use std::process::ExitCode;

use reference::generator::reasons::{cuts, rows, CASES};
use reference::program;

fn run(input: &mut dyn BufRead) -> io::Result<()> {
    let mut log = Vec::new();
    input.read_to_end(&mut log)?;
    let text = if std::env::args_os().nth(2).is_some_and(|word| word == "--cuts") {
        cuts(&log).into_iter().map(|(case, line)| format!("{line}\t{case}\n")).collect()
    } else {
        rows(&log)
    };
    io::stdout().write_all(text.as_bytes())
}

fn main() -> ExitCode {
    if std::env::args_os().nth(1).is_some_and(|word| word == "--cases") {
        println!("{}", CASES.join("\n"));
        return ExitCode::SUCCESS;
    }
    program("why_keys", run)
}
