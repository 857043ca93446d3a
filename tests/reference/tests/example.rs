//! The files of examples/two-ports.md are up to date.

use std::process::Command;

use reference::why::{key, why, Reason};

fn stored(name: &str) -> Vec<u8> {
    std::fs::read(format!("{}/../../examples/{name}", env!("CARGO_MANIFEST_DIR"))).unwrap()
}

#[test]
fn two_ports() {
    let log = Command::new(env!("CARGO_BIN_EXE_example_log")).output().unwrap().stdout;
    assert_eq!(log, stored("two-ports.log"));
    let output = reference::log::replay(&log);
    assert_eq!(output.as_bytes(), stored("two-ports.out"));
    // the explained answers and the nodes of the printout are these
    let explained = String::from_utf8(stored("two-ports.md")).unwrap();
    let rows: Vec<&str> =
        explained.lines().filter(|row| row.starts_with('|') && row.as_bytes()[2].is_ascii_digit()).collect();
    for (number, answer) in output.lines().take(21).enumerate() {
        let cells: Vec<&str> = rows[number].split(" | ").collect();
        assert_eq!(cells[0], format!("| {}", number + 1));
        assert_eq!(cells[2], format!("`{}`", answer.replace('\t', " ")));
    }
    assert_eq!(rows.len(), 21);

    // so is what is told of each node, whose key begins with its letter twice
    let key = |digits: &str| {
        let line = text(&log)
            .lines()
            .find(|line| line.split('\t').nth(2).is_some_and(|key| key.starts_with(digits)));
        key(line.unwrap().split('\t').nth(2).unwrap().as_bytes()).unwrap()
    };
    for (name, digits) in [("A", "aa"), ("B", "bb"), ("C", "cc"), ("D", "dd"), ("the host's own", "01")] {
        let told = why(&log, &key(digits)).to_string().replace('\t', " ");
        assert!(explained.contains(&format!("| {name} | `{told}` |")), "{name} {told}");
    }
    let first_20: Vec<&str> = text(&log).lines().take(20).collect();
    assert_eq!(why(first_20.join("\n").as_bytes(), &key("cc")), Reason::Ping { sweep: 17, ping: 7 });
}

fn text(log: &[u8]) -> &str {
    std::str::from_utf8(log).unwrap()
}
