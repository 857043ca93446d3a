//! Why a node is or isn't there (C-17): logs by hand, each with the line that must be told. Line 1 is the `own` line unless it
//! is said otherwise.

mod common;

use common::*;
use reference::generator::logs::{log, Options};
use reference::generator::reasons::{cuts, told, CASES};
use reference::hex;
use reference::why::{key, why, Reason, Why};

/// "its proof is at most 43,200,000 ms old"
const HALF_A_DAY: u64 = 43_200_000;

/// A log written down line by line.
struct Written(Vec<String>);

impl Written {
    fn new() -> Written {
        Written(vec![format!("own\t16\t{}", hex(&OWN))])
    }

    fn add(mut self, line: String) -> Written {
        self.0.push(line);
        self
    }

    fn sent_to(self, now: u64, key: &[u8], address: &[u8]) -> Written {
        let (address, hash) = (hex(address), hex(&hash_of(key)));
        self.add(format!("sent\t{now}\t{}\t{address}\t{PORT}\t{PORT}\t{hash}", hex(key)))
    }

    fn sent(self, now: u64, key: &[u8]) -> Written {
        self.sent_to(now, key, &address_of(key))
    }

    fn rx_from(self, now: u64, key: &[u8], address: &[u8], port: u16, datagram: &[u8]) -> Written {
        self.add(format!("rx\t{now}\t0\t{}\t{port}\t{}\t{}", hex(address), hex(key), hex(datagram)))
    }

    fn rx(self, now: u64, key: &[u8], datagram: &[u8]) -> Written {
        self.rx_from(now, key, &address_of(key), PORT, datagram)
    }

    fn pong(self, now: u64, key: &[u8]) -> Written {
        self.rx(now, key, &pong(&hash_of(key)))
    }

    fn sweep(self, now: u64) -> Written {
        self.add(format!("sweep\t{now}"))
    }

    /// Two lines: a ping to a node, and its pong at the same millisecond.
    fn meet_at(self, now: u64, key: &[u8], address: &[u8]) -> Written {
        self.sent_to(now, key, address).rx_from(now, key, address, PORT, &pong(&hash_of(key)))
    }

    fn meet(self, now: u64, key: &[u8]) -> Written {
        self.meet_at(now, key, &address_of(key))
    }

    /// What is told of a key, tabs as blanks.
    fn why(&self, key: &[u8]) -> String {
        let text = self.0.join("\n");
        // with and without the last 0A
        assert_eq!(why(text.as_bytes(), key), why((text.clone() + "\n").as_bytes(), key));
        why(text.as_bytes(), key).to_string().replace('\t', " ")
    }
}

fn x() -> [u8; 64] {
    keys(255, 1)[0]
}

#[test]
fn a_strangers_ping_is_accepted() {
    let log = Written::new().rx(1, &x(), &ping(9));
    assert_eq!(log.why(&x()), "never 0");
    // the last number, refusal or not: a pong that nobody asked for is 14
    assert_eq!(log.pong(2, &x()).why(&x()), "never 14");
}

#[test]
fn lines_before_own() {
    let own = Written::new().0.remove(0);
    let early = Written(vec![]).sent(1, &x()).add(own.clone());
    assert_eq!(early.why(&x()), "never 1");
    assert_eq!(Written(vec![]).rx(1, &x(), &ping(9)).add(own.clone()).why(&x()), "never 1");
    // the `own` is line 2
    assert_eq!(early.sent(1, &x()).why(&x()), "waiting 3");
    // no `own` is ever accepted behind a refused one
    let refused =
        Written(vec![own.replace("own\t16", "own\t17")]).sent(1, &x()).add(own).rx(2, &x(), &ping(9));
    assert_eq!(refused.why(&x()), "never 1");
}

#[test]
fn who_is_named() {
    let mut log = Written::new().sent(1, &x());
    log.0[1] += "\t1"; // one field too many
    assert_eq!(log.why(&x()), "unnamed");
    // a second `own`, and a key in another place than that of the signer or the target
    let other = keys(255, 2)[1];
    let log = Written::new()
        .add(format!("own\t16\t{}", hex(&x())))
        .rx_from(1, &other, &x(), PORT, &ping(9))
        .add(format!("sent\t1\t{}\tc0000207\t1\t1\t{}", hex(&other), hex(&x())));
    assert_eq!(log.why(&x()), "unnamed");
    assert_eq!(log.why(&other), "never 4"); // a hash of 64 bytes, in the last line
                                            // a signer that only begins like the key
    let log = Written::new().rx(1, &[&x()[..], &[0]].concat(), &ping(9)).rx(1, &x()[..63], &ping(9));
    assert_eq!(log.why(&x()), "unnamed");
}

#[test]
fn the_own_key() {
    assert_eq!(Written::new().meet(1, &x()).why(&OWN), "unnamed");
    assert_eq!(Written::new().rx(1, &OWN, &ping(9)).why(&OWN), "never 7");
    assert_eq!(Written::new().sent(1, &OWN).why(&OWN), "never 7");
}

#[test]
fn the_last_line_that_put_it_at_the_tail() {
    let x = x();
    // FindNode at the pong's millisecond, x alone in its bucket: no byte of the table changes
    let log = Written::new().sent(100, &x).pong(250, &x);
    let same = Written(log.0.clone()).rx(250, &x, &find_node());
    let mut before = Why::default();
    log.0.iter().for_each(|line| drop(before.line(line.as_bytes())));
    let mut after = Why::default();
    same.0.iter().for_each(|line| drop(after.line(line.as_bytes())));
    assert!(before.replay.table == after.replay.table);
    assert_eq!(log.why(&x), "seated 3 3");
    assert_eq!(same.why(&x), "seated 3 4");
    // a ping from another port is accepted, and moves nobody
    let log =
        Written::new().sent(100, &x).pong(250, &x).rx_from(250, &x, &address_of(&x), PORT + 1, &ping(9));
    assert_eq!(log.why(&x), "seated 3 3");
    // a ping from where it is moves it while its proof is at most so old
    for (age, told) in [(HALF_A_DAY, "seated 3 4"), (HALF_A_DAY + 1, "seated 3 3")] {
        assert_eq!(Written::new().meet(100, &x).rx(100 + age, &x, &ping(9)).why(&x), told);
    }
    // a refused line doesn't: the clock is at 100
    assert_eq!(Written::new().meet(100, &x).rx(99, &x, &find_node()).why(&x), "seated 3 3");
    // a pong does, however old the proof is
    let late = 100 + HALF_A_DAY + 9;
    assert_eq!(Written::new().meet(100, &x).sent(late, &x).pong(late, &x).why(&x), "seated 3 5");
}

#[test]
fn the_ping_that_was_out() {
    let x = x();
    // line 5 gets 17: a ping is out already
    let log = Written::new().sent(100, &x).pong(150, &x).sent(200, &x).sent(300, &x).sweep(701);
    assert_eq!(log.why(&x), "ping 6 4");
    // at 500 ms it stays
    assert_eq!(Written::new().sent(100, &x).sweep(600).why(&x), "waiting 2");
}

#[test]
fn refused_lines_behind_a_removal_dont_count() {
    let nodes = keys(255, 5);
    let mut log = Written::new().sent(100, &nodes[0]).sweep(601);
    assert_eq!(log.why(&nodes[0]), "ping 3 2");
    for node in &nodes[1..] {
        log = log.sent(602, node);
    }
    // line 8 gets 18
    assert_eq!(log.sent(603, &nodes[0]).why(&nodes[0]), "ping 3 2");
    // nor does an accepted one that doesn't put it in line
    let log = Written::new().sent(100, &nodes[0]).sweep(601).rx(602, &nodes[0], &ping(9));
    assert_eq!(log.why(&nodes[0]), "ping 3 2");
}

#[test]
fn a_new_stay() {
    assert_eq!(Written::new().sent(100, &x()).sweep(601).sent(601, &x()).why(&x()), "waiting 4");
}

/// Line 6 puts the third node of a range in line, line 7 is its pong at 1,000: its range has two seats.
fn proved() -> (Written, [u8; 64]) {
    let nodes = keys(255, 3);
    let log = Written::new().meet_at(1, &nodes[0], &[192, 0, 2, 1]).meet_at(2, &nodes[1], &[192, 0, 2, 2]);
    (log.meet_at(1000, &nodes[2], &[192, 0, 2, 3]), nodes[2])
}

#[test]
fn old_proofs() {
    let (log, node) = proved();
    let old = 1000 + HALF_A_DAY;
    let lines = log.0;
    let log = || Written(lines.clone());
    assert_eq!(log().why(&node), "waiting 6");
    assert_eq!(log().sweep(old).why(&node), "waiting 6");
    assert_eq!(log().sweep(old + 1).why(&node), "proof 8");
    // a ping out in time doesn't save it; an overdue one comes before the old proof
    let pinged = || log().sent_to(old, &node, &[192, 0, 2, 3]);
    assert_eq!(pinged().sweep(old + 400).why(&node), "proof 9");
    assert_eq!(pinged().sweep(old + 500).why(&node), "proof 9");
    assert_eq!(pinged().sweep(old + 501).why(&node), "ping 9 8");
    assert_eq!(log().sweep(old + 1).sent(old + 1, &node).why(&node), "waiting 9");
    // a seat isn't lost to an old proof
    assert_eq!(Written::new().meet(1000, &x()).sweep(old + 1).why(&x()), "seated 3 3");
}

#[test]
fn a_seat_becomes_free_at_a_sweep() {
    let nodes = keys(255, 17);
    let mut log = Written::new();
    for node in &nodes[..16] {
        log = log.meet(1, node); // lines 2 to 33
    }
    log = log.meet(2, &nodes[16]).sent(3, &nodes[0]);
    assert_eq!(log.why(&nodes[16]), "waiting 34");
    log = log.sweep(504);
    assert_eq!(log.why(&nodes[16]), "seated 37 37");
    assert_eq!(log.why(&nodes[0]), "ping 37 36");
}

#[test]
fn every_line_has_a_number() {
    let mut log = Written(vec![String::new()]).add(Written::new().0.remove(0));
    log = log.add("x".repeat(3001)).add("# a remark".to_string()).sent(1, &x());
    assert_eq!(log.why(&x()), "waiting 5");
    assert_eq!(why(b"", &x()), Reason::Unnamed);
}

#[test]
fn keys_are_128_digits_in_lower_case() {
    let text = hex(&x());
    assert_eq!(key(text.as_bytes()), Ok(x()));
    for wrong in
        ["", "-", &text[..126], &text[..127], &(text.clone() + "0"), &(text.clone() + "00"), &"AB".repeat(64)]
    {
        assert_eq!(key(wrong.as_bytes()), Err(5), "{wrong}");
    }
    assert_eq!(key("ag".repeat(64).as_bytes()), Err(5));
}

/// What is told agrees with the table at the end, and every case is shown by some log, at its end or behind one of its lines.
#[test]
fn generated_logs() {
    let mut shown = std::collections::BTreeSet::new();
    for seed in 1..=40 {
        let keys = (seed % 2 == 0).then_some(100);
        let size = if seed % 8 == 1 { 30 } else { 1500 };
        let (text, _) = log(seed, size, &Options { keys, ..Options::default() });
        let mut replay = reference::log::Replay::default();
        reference::log::lines(&text).for_each(|line| drop(replay.line(line)));
        for told in told(&text) {
            let table = replay.table.as_ref();
            let held = table.is_some_and(|table| table.held(&told.key).is_some());
            let seated = table.is_some_and(|table| table.is_seated(&told.key));
            assert_eq!(matches!(told.reason, Reason::Seated { .. }), seated);
            assert_eq!(matches!(told.reason, Reason::Waiting { .. }), held && !seated);
            shown.extend(told.cases);
        }
        shown.extend(cuts(&text).into_keys());
    }
    let missing: Vec<&&str> = CASES.iter().filter(|case| !shown.contains(*case)).collect();
    assert!(missing.is_empty(), "{missing:?}");
}
