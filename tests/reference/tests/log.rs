//! Readings L1 to L9: log lines and the printout.

mod common;

use std::process::{Command, Stdio};

use common::*;
use reference::hex;
use reference::log::replay;

fn own(buckets: &str) -> String {
    format!("own\t{buckets}\t{}", hex(&OWN))
}

/// The answers of lines, without the printout.
fn answers(lines: &[&str]) -> Vec<String> {
    let output = replay(format!("{}\n", lines.join("\n")).as_bytes());
    output.lines().take(lines.len()).map(str::to_string).collect()
}

const EMPTY: &str = "table\t16\t0\t0\t0\n";

#[test]
fn l1_own_lines() {
    let good = &own("16")[..];
    // a call before any `own` gets 1 and blocks nothing
    assert_eq!(answers(&["sweep\t1", good, "sweep\t1"]), ["1", "0", "0"]);
    // a refused `own` counts: every later one is 21, every call 1, and there is no printout
    for refused in [&own("17")[..], "own\t16\t00"] {
        let log = format!("{refused}\n{good}\nsweep\t1\n");
        let number = if refused.ends_with("\t00") { "5" } else { "1" };
        assert_eq!(replay(log.as_bytes()), format!("{number}\n21\n1\n"));
    }
    // one that got 21 blocks nothing
    let long = format!("own\t16\t{}", "00".repeat(1500));
    assert_eq!(answers(&["own\t16\t", "own\t016\t00", &long, good]), ["21", "21", "21", "0"]);
    // a second one is 21 and changes nothing
    assert_eq!(replay(format!("{good}\n{}\n", own("1")).as_bytes()), format!("0\n21\n{EMPTY}"));
}

#[test]
fn l2_21_before_1_and_1_before_5() {
    assert_eq!(answers(&[&own("16"), &own("17")]), ["0", "21"]);
    assert_eq!(answers(&["sweep", &own("16")]), ["21", "0"]);
    assert_eq!(answers(&["own\t17\t00"]), ["1"]);
    assert_eq!(answers(&[&own("18446744073709551616")]), ["21"]);
    for buckets in ["0", "17", "256", "18446744073709551615"] {
        assert_eq!(answers(&[&own(buckets)]), ["1"]);
    }
    for buckets in 1..=16 {
        assert_eq!(answers(&[&own(&buckets.to_string())]), ["0"]);
    }
}

#[test]
fn l3_decimals_and_hex() {
    let good = own("16");
    for (ms, number) in [
        ("0", "0"),
        ("00", "21"),
        ("01", "21"),
        ("+5", "21"),
        (" 5", "21"),
        ("5 ", "21"),
        ("-5", "21"),
        ("5a", "21"),
        ("", "21"),
        ("18446744073709551615", "0"),
        ("18446744073709551616", "21"),
        ("99999999999999999999999", "21"),
        ("-", "21"),
        ("5\r", "21"),
        ("5\0", "21"),
        ("\u{661}", "21"),
    ] {
        assert_eq!(answers(&[&good, &format!("sweep\t{ms}")])[1], number, "{ms:?}");
    }
    let sent = |key: &str, address: &str, udp: &str, tcp: &str, hash: &str| {
        answers(&[&good, &format!("sent\t1\t{key}\t{address}\t{udp}\t{tcp}\t{hash}")])[1].clone()
    };
    let (key, hash) = (hex(&keys(255, 1)[0]), "ab".repeat(32));
    assert_eq!(sent(&key, "c0000207", "65535", "0", &hash), "0");
    assert_eq!(sent(&key, "c0000207", "65536", "0", &hash), "21");
    assert_eq!(sent(&key, "c0000207", "1", "65536", &hash), "21");
    assert_eq!(sent(&key, "C0000207", "1", "1", &hash), "21");
    assert_eq!(sent(&key, "c000020", "1", "1", &hash), "21");
    assert_eq!(sent(&key, "", "1", "1", &hash), "21");
    assert_eq!(sent(&key, "c000020g", "1", "1", &hash), "21");
    assert_eq!(sent("-", "c0000207", "1", "1", &hash), "21");
    assert_eq!(sent(&key, "c0000207", "1", "1", "-"), "21");
    assert_eq!(sent(&key, "c0000207", "1", "1", &format!("{hash}\r")), "21");
    // `-` stands for the signer of `rx` only
    assert_eq!(answers(&[&good, "rx\t1\t1\tc0000207\t1\t-\t00"])[1], "3");
    assert_eq!(answers(&[&good, "rx\t1\t1\tc0000207\t1\t-\t-"])[1], "21");
    assert_eq!(answers(&[&good, "rx\t1\t1\t-\t1\t-\t00"])[1], "21");
    // words and fields
    for line in [
        "Sweep\t1",
        "sweep 1",
        "sweep\t1\t",
        "\tsweep\t1",
        "sweep\t\t1",
        "sweep",
        "sweepx\t1",
        " sweep\t1",
        "rx\t1\t1\tc0000207\t1\t-",
        "rx\t1\t1\tc0000207\t1\t-\t00\t00",
        "sent\t1",
        "#",
        "",
    ] {
        assert_eq!(answers(&[&good, line])[1], "21", "{line:?}");
    }
    // bytes over 7f
    assert_eq!(replay(b"sweep\t\xff\n"), "21\n");
    assert_eq!(replay(b"\xc3\xa9\n"), "21\n");
}

#[test]
fn l4_lines_and_their_ends() {
    assert_eq!(replay(b""), "");
    assert_eq!(replay(b"\n"), "21\n");
    assert_eq!(replay(b"\n\n"), "21\n21\n");
    assert_eq!(replay(b"sweep\t1\n"), "1\n");
    assert_eq!(replay(b"sweep\t1"), "1\n");
    assert_eq!(replay(b"\nx"), "21\n21\n");
    assert_eq!(replay(own("16").as_bytes()), format!("0\n{EMPTY}"));
    assert_eq!(replay(b"sweep\t1\r\n"), "21\n");
}

#[test]
fn l5_lines_of_3000_and_3001() {
    let good = own("16");
    let line = |length: usize, ms: &str| {
        let before = format!("rx\t{ms}\t1\tc0000207\t1\t-\t");
        let digits = length - before.len();
        assert_eq!(digits % 2, 0);
        format!("{before}{}", "a".repeat(digits))
    };
    // 22 characters before the datagram: an even length
    let (at, above) = (line(3000, "1"), line(3001, "10"));
    assert_eq!((at.len(), above.len()), (3000, 3001));
    let far = line(100_000, "1");
    assert_eq!(answers(&[&good, &at, &above, &far, "sweep\t1"]), ["0", "3", "21", "21", "0"]);
}

#[test]
fn l6_wrong_lengths_are_well_formed() {
    let good = own("16");
    let rest = hex(&ping(0));
    let hash = "ab".repeat(32);
    let key = hex(&keys(255, 1)[0]);
    assert_eq!(answers(&[&good, &format!("rx\t1\t0\tc0000207\t1\t-\t{rest}")])[1], "5");
    assert_eq!(answers(&[&good, &format!("rx\t1\t0\tc0000207\t1\t{}\t{rest}", &key[2..])])[1], "5");
    assert_eq!(answers(&[&good, &format!("rx\t1\t0\tc00002\t1\t{key}\t{rest}")])[1], "6");
    assert_eq!(answers(&[&good, &format!("sent\t1\t{key}\tc0000207\t1\t1\t{}", &hash[2..])])[1], "4");
    let zeros = "00".repeat(64);
    assert_eq!(answers(&[&good, &format!("rx\t1\t0\tc0000207\t1\t{zeros}\t{rest}")])[1], "0\tpong\tping");
}

#[test]
fn l7_the_printout() {
    let far = keys(255, 2);
    let near = keys(253, 1)[0];
    let mut log = Log::new();
    // times of 0 are printed as 0; none is `-`; UDP before TCP
    assert_eq!(log.meet(0, &near), "0\tseat");
    assert_eq!(log.sent(0, &near), "0");
    assert_eq!(log.sent_to(0, &far[0], &[0xab; 16], 1), "0");
    assert_eq!(log.sent(0, &far[1]), "0");
    let (wide, [seat, line]) = ("ab".repeat(16), [&near, &far[1]].map(|key| hex(&address_of(key))));
    let [near, first, second] = [&near, &far[0], &far[1]].map(|key| hex(&key[..8]));
    let expected = format!(
        "table\t16\t0\t1\t2\n\
         seat\t254\t1\t{near}\t{seat}\t30303\t30303\t0\t0\t0\n\
         wait\t256\t1\t{first}\t{wide}\t1\t30303\t0\t-\t0\n\
         wait\t256\t2\t{second}\t{line}\t30303\t30303\t0\t-\t0\n"
    );
    assert_eq!(log.printout(), expected);
    // the clock is that of the last accepted call
    assert_eq!(log.rx(70, &far[0], &find_node()), "13");
    assert_eq!(log.printout(), expected);
    log.sweep(70);
    assert!(log.printout().starts_with("table\t16\t70\t"));
}

#[test]
fn l8_answers_alone() {
    let key = hex(&keys(255, 1)[0]);
    let sent = format!("sent\t1\t{key}\tc0000207\t1\t1\t{}", "ab".repeat(32));
    let log = format!("{}\n{sent}\n{sent}\nsweep\t502\n", own("16"));
    assert_eq!(replay(log.as_bytes()), "0\n0\n17\n0\ntable\t16\t502\t0\t0\n");
}

#[test]
fn the_values_of_rx() {
    use reference::packet::{Endpoint, Node, Packet};
    let keys = keys(255, 17);
    let mut log = Log::new();
    assert_eq!(log.rx(1, &keys[0], &ping(0)), "0\tpong\tping");
    for key in &keys[..16] {
        assert_eq!(log.meet(1, key), "0\tseat");
    }
    assert_eq!(log.rx(2, &keys[0], &ping(0)), "0\tpong"); // to the tail: keys[1] is the head
    let head = hex(&keys[1][..8]);
    assert_eq!(log.meet(3, &keys[16]), format!("0\twait\t{head}\tquiet"));
    log.sent(4, &keys[1]);
    assert_eq!(log.meet(5, &keys[16]), format!("0\twait\t{head}\t4"));
    assert_eq!(log.pong(6, &keys[1]), "0\ttail");
    let endpoint = Endpoint { address: V4.to_vec(), udp: 1, tcp: 1 };
    let nodes = vec![Node { endpoint, key: vec![1; 64] }];
    for (fields, word) in [
        (Packet::FindNode { target: vec![1; 64], expiration: 0 }, "find"),
        (Packet::Neighbors { nodes, expiration: 0 }, "nodes"),
        (Packet::EnrRequest { expiration: 0 }, "enr"),
        (Packet::EnrResponse { request_hash: vec![1; 32], record: vec![0xc0] }, "record"),
    ] {
        assert_eq!(log.rx(7, &keys[2], &packet(&fields)), format!("0\t{word}"));
    }
}

/// L9: the file named by the first argument, or standard input.
#[test]
fn l9_the_program() {
    let program = env!("CARGO_BIN_EXE_replay");
    let missing = Command::new(program).arg("/nonexistent/log").output().unwrap();
    assert!(missing.stdout.is_empty() && !missing.stderr.is_empty() && !missing.status.success());
    let path = std::env::temp_dir().join(format!("reference-l9-{}", std::process::id()));
    std::fs::write(&path, b"\nsweep\t1").unwrap();
    let file = Command::new(program).arg(&path).output().unwrap();
    assert_eq!(file.stdout, b"21\n1\n");
    let log = std::fs::File::open(&path).unwrap();
    let input = Command::new(program).stdin(Stdio::from(log)).output().unwrap();
    assert_eq!(input.stdout, b"21\n1\n");
    std::fs::remove_file(&path).unwrap();
}
