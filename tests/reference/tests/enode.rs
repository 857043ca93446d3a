//! Enode lines and boot lists, by hand.

use reference::enode::{line, read, read_line, text, write, End};
use reference::generator::enodes;
use reference::generator::random::Random;
use reference::packet::{Endpoint, Node};

fn key(digits: &str) -> String {
    digits.repeat(128 / digits.len())
}

/// A line of a key and what follows the `@`.
fn with(digits: &str, place: &str) -> Vec<u8> {
    format!("enode://{}@{place}", key(digits)).into_bytes()
}

fn node(byte: u8, address: &[u8], udp: u16, tcp: u16) -> Node {
    Node { endpoint: Endpoint { address: address.to_vec(), udp, tcp }, key: vec![byte; 64] }
}

fn reads(place: &str) -> Option<Node> {
    read_line(&with("ab", place))
}

#[test]
fn lines_that_fit() {
    let at = |udp, tcp| Some(node(0xab, &[1, 2, 3, 4], udp, tcp));
    assert_eq!(reads("1.2.3.4:30303"), at(30303, 30303));
    assert_eq!(reads("1.2.3.4:30303?discport=30301"), at(30301, 30303));
    assert_eq!(reads("1.2.3.4:0"), at(0, 0));
    assert_eq!(reads("1.2.3.4:0?discport=65535"), at(65535, 0));
    assert_eq!(reads("1.2.3.4:65535?discport=0"), at(0, 65535));
    assert_eq!(reads("0.0.0.0:1"), Some(node(0xab, &[0; 4], 1, 1)));
    assert_eq!(reads("255.255.255.255:1"), Some(node(0xab, &[255; 4], 1, 1)));
    // hex of any case
    for digits in ["AB", "aB", "Ab", "abABAbaB"] {
        assert_eq!(read_line(&with(digits, "1.2.3.4:7")), Some(node(0xab, &[1, 2, 3, 4], 7, 7)), "{digits}");
    }
    assert_eq!(read_line(&with("0f", "1.2.3.4:7")), Some(node(0x0f, &[1, 2, 3, 4], 7, 7)));
    assert_eq!(read_line(&with("F0", "1.2.3.4:7")), Some(node(0xf0, &[1, 2, 3, 4], 7, 7)));
    let longest = with("ab", "255.255.255.255:65535?discport=65534");
    assert_eq!(longest.len(), 173);
    assert!(read_line(&longest).is_some());
}

#[test]
fn lines_that_do_not_fit() {
    for place in [
        // ports
        "1.2.3.4:30303?discport=30303",
        "1.2.3.4:0?discport=0",
        "1.2.3.4:30303?discport=",
        "1.2.3.4:30303?",
        "1.2.3.4:?discport=30301",
        "1.2.3.4:",
        "1.2.3.4",
        "1.2.3.4:65536",
        "1.2.3.4:100000",
        "1.2.3.4:18446744073709551617",
        "1.2.3.4:030303",
        "1.2.3.4:00",
        "1.2.3.4:+1",
        "1.2.3.4:-1",
        "1.2.3.4:1?discport=65536",
        "1.2.3.4:1?discport=02",
        "1.2.3.4:1?DISCPORT=2",
        "1.2.3.4:1&discport=2",
        "1.2.3.4:1?discport=2?discport=3",
        "1.2.3.4:1?discport=2&x=3",
        "1.2.3.4:1?x=3",
        // addresses
        "256.2.3.4:1",
        "1.2.3.256:1",
        "1.2.3.1000:1",
        "01.2.3.4:1",
        "1.2.3.04:1",
        "1.2.3.00:1",
        "1.2.3:1",
        "1.2.3.4.5:1",
        "1.2..4:1",
        ".1.2.3.4:1",
        "1.2.3.4.:1",
        "[::1]:1",
        "::1:1",
        "localhost:1",
        ":1",
        "",
        // blanks, CR, more
        "1.2.3.4:1 ",
        " 1.2.3.4:1",
        "1.2.3.4:1\r",
        "1.2.3.4:1\t",
        "1.2.3.4:1/",
        "1.2.3.4:1#boot",
        "1.2.3.4:1\0",
        "@1.2.3.4:1",
    ] {
        assert_eq!(reads(place), None, "{place:?}");
    }
}

#[test]
fn heads_that_do_not_fit() {
    let place = "@1.2.3.4:1";
    let digits = key("ab");
    assert!(read_line(format!("enode://{digits}{place}").as_bytes()).is_some());
    for head in [
        format!("enode://{}", &digits[..127]),
        format!("enode://{digits}0"),
        format!("enode://{}", &digits[..126]),
        "enode://".to_string(),
        format!("enode://{}g", &digits[..127]),
        format!("enode://G{}", &digits[..127]),
        format!("enode://{} ", &digits[..127]),
        format!("enode://{}:", &digits[..127]),
        format!("enode://0x{}", &digits[..126]),
        format!("Enode://{digits}"),
        format!("ENODE://{digits}"),
        format!("enode:/{digits}"),
        format!("enode:{digits}"),
        format!("enr://{digits}"),
        format!(" enode://{digits}"),
        digits.clone(),
        String::new(),
    ] {
        assert_eq!(read_line(format!("{head}{place}").as_bytes()), None, "{head}");
    }
    // without the place, and bytes that are no text
    assert_eq!(read_line(format!("enode://{digits}").as_bytes()), None);
    assert_eq!(read_line(b""), None);
    assert_eq!(read_line(&[0xff; 150]), None);
    let mut high = with("ab", "1.2.3.4:1");
    high[20] |= 0x80;
    assert_eq!(read_line(&high), None);
}

/// Good lines `a`, `b`, `c`, and a bad one.
fn lines() -> [String; 4] {
    let good = |digits, place| String::from_utf8(with(digits, place)).unwrap();
    [
        good("aa", "1.1.1.1:1"),
        good("bb", "2.2.2.2:2?discport=3"),
        good("cc", "3.3.3.3:3"),
        good("dd", "4.4.4.4:04"),
    ]
}

fn nodes() -> [Node; 3] {
    [node(0xaa, &[1; 4], 1, 1), node(0xbb, &[2; 4], 3, 2), node(0xcc, &[3; 4], 3, 3)]
}

#[test]
fn texts() {
    let [a, b, c, bad] = lines();
    let all = nodes();
    let check = |room: usize, text: &str, count: usize, end: End| {
        assert_eq!(read(room, text.as_bytes()), (all[..count].to_vec(), end), "{text:?} in {room}");
    };
    // no line at all; a last 0A may be missing
    for room in [0, 1, 9] {
        check(room, "", 0, End::Complete);
    }
    check(9, &format!("{a}\n{b}\n{c}\n"), 3, End::Complete);
    check(9, &format!("{a}\n{b}\n{c}"), 3, End::Complete);
    check(3, &format!("{a}\n{b}\n{c}"), 3, End::Complete);
    // an empty line, CR, a bad line
    check(9, "\n", 0, End::Unfit { line: 1 });
    check(9, &format!("{a}\n\n"), 1, End::Unfit { line: 2 });
    check(9, &format!("{a}\n\n{b}\n"), 1, End::Unfit { line: 2 });
    check(9, &format!("{a}\r\n{b}\r\n"), 0, End::Unfit { line: 1 });
    check(9, &format!("{a}\n{bad}\n{b}\n"), 1, End::Unfit { line: 2 });
    check(9, &format!("{a}\n{b}\n{bad}"), 2, End::Unfit { line: 3 });
    check(9, &bad, 0, End::Unfit { line: 1 });
    // a full list: a good line is 19, a bad one 22
    check(2, &format!("{a}\n{b}\n{c}\n"), 2, End::Full { line: 3 });
    check(2, &format!("{a}\n{b}\n{c}"), 2, End::Full { line: 3 });
    check(2, &format!("{a}\n{b}\n{c}\n{bad}\n"), 2, End::Full { line: 3 });
    check(2, &format!("{a}\n{b}\n{bad}\n{c}\n"), 2, End::Unfit { line: 3 });
    check(2, &format!("{a}\n{b}\n\n"), 2, End::Unfit { line: 3 });
    check(2, &format!("{a}\n{b}\n"), 2, End::Complete);
    // room 0
    check(0, &a, 0, End::Full { line: 1 });
    check(0, &bad, 0, End::Unfit { line: 1 });
    check(0, "\n", 0, End::Unfit { line: 1 });
}

#[test]
fn ends() {
    assert_eq!((End::Complete.number(), End::Complete.line()), (0, 0));
    assert_eq!((End::Unfit { line: 7 }.number(), End::Unfit { line: 7 }.line()), (22, 7));
    assert_eq!((End::Full { line: 8 }.number(), End::Full { line: 8 }.line()), (19, 8));
}

#[test]
fn written() {
    let [a, b, c, _] = lines();
    let all = nodes();
    assert_eq!(text(&all), Ok(format!("{a}\n{b}\n{c}\n")));
    assert_eq!(text(&[]), Ok(String::new()));
    assert_eq!(line(&all[1]), Ok(b.clone() + "\n"));
    // an address of any length but 4
    for length in [0, 1, 3, 5, 15, 16, 17] {
        let odd = node(0xdd, &vec![9; length], 1, 1);
        assert_eq!(line(&odd), Err(20));
        assert_eq!(text(&[all[0].clone(), odd]), Err(20));
    }
    // rooms: 20 goes first, and nothing is written where it is refused
    let size = a.len() + b.len() + 2;
    let mut room = vec![0x5a; size + 1];
    assert_eq!(write(&all[..2], &mut room[..size - 1]), Err(19));
    assert_eq!(write(&[node(0, &[0; 16], 1, 1)], &mut []), Err(20));
    assert_eq!(write(&all[..2], &mut []), Err(19));
    assert!(room.iter().all(|byte| *byte == 0x5a));
    assert_eq!(write(&[], &mut []), Ok(0));
    assert_eq!(write(&all[..2], &mut room), Ok(size));
    assert_eq!(room, format!("{a}\n{b}\nZ").into_bytes());
}

/// "Then text and record agree both ways, up to hex case and that 0A."
#[test]
fn both_ways() {
    let mut random = Random::new(1);
    let (mut complete, mut unfit, mut full) = (0, 0, 0);
    for _ in 0..3000 {
        let list: Vec<Node> = (0..random.below(6)).map(|_| enodes::node(&mut random)).collect();
        let written = text(&list).unwrap();
        assert_eq!(read(list.len(), written.as_bytes()), (list, End::Complete));

        let given = enodes::text(&mut random, 20);
        let room = random.below(41);
        let (found, end) = read(room, &given);
        match end {
            End::Complete => {
                let mut whole = given.clone();
                if !whole.is_empty() && !whole.ends_with(b"\n") {
                    whole.push(b'\n');
                }
                assert!(text(&found).unwrap().as_bytes().eq_ignore_ascii_case(&whole));
                complete += 1;
            }
            End::Unfit { line } => {
                assert_eq!(line, found.len() + 1);
                unfit += 1;
            }
            End::Full { line } => {
                assert_eq!((line, found.len()), (room + 1, room));
                full += 1;
            }
        }
    }
    assert!(complete > 300 && unfit > 300 && full > 100, "{complete} {unfit} {full}");
}

/// Lines that clients publish: tests/boot/published.txt.
#[test]
fn published() {
    let stored = include_bytes!("../../boot/published.txt");
    let (found, end) = read(100, stored);
    assert_eq!((found.len(), end), (7, End::Complete));
    assert_eq!(found[0].endpoint, Endpoint { address: vec![18, 138, 108, 67], udp: 30303, tcp: 30303 });
    assert_eq!(found[6].endpoint, Endpoint { address: vec![10, 3, 58, 6], udp: 30301, tcp: 30303 });
    assert_eq!(text(&found).unwrap().as_bytes(), stored);
}
