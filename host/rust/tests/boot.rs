//! Boot lists read and written, here and in the reference: by hand, and generated and damaged texts, lists of 0
//! to 40 records, rooms of every size. COGHAMMER_CALLS says how many of each (6,000).

mod common;

use coghammer::{enode_text, read_enodes, write_enodes, End, Endpoint, Node, Number, ENODE_LINE};
use common::{counted, told};
use reference::enode;
use reference::generator::enodes;
use reference::generator::random::Random;
use reference::packet;

const KEY: [u8; 64] = [0xab; 64];

fn line(place: &str) -> String {
    format!("enode://{}@{place}", reference::hex(&KEY))
}

fn node(address: &[u8], udp: u16, tcp: u16) -> Node {
    Node { key: KEY, endpoint: Endpoint::new(address, udp, tcp).unwrap() }
}

#[test]
fn by_hand() {
    let (one, two) = (node(&[192, 0, 2, 7], 30303, 30303), node(&[255, 255, 255, 255], 65534, 65535));
    let (first, last) = (line("192.0.2.7:30303"), line("255.255.255.255:65535?discport=65534"));
    let text = format!("{first}\n{last}\n");
    assert_eq!(last.len() + 1, ENODE_LINE);

    let mut list = [Node::EMPTY; 3];
    assert_eq!(read_enodes(&mut list, text.as_bytes()), (2, End::Complete));
    assert_eq!(list, [one, two, Node::EMPTY]);
    assert_eq!(enode_text(&list[..2]).unwrap(), text.as_bytes());
    assert_eq!(read_enodes(&mut list[..2], text.trim_end().as_bytes()), (2, End::Complete));
    assert_eq!(read_enodes(&mut list, b""), (0, End::Complete));
    assert_eq!(read_enodes(&mut [], b""), (0, End::Complete));

    // lines that don't fit, and a full list
    let mut list = [two; 3];
    for (room, text, count, end) in [
        (3, "\n".to_string(), 0, End::Unfit { line: 1 }),
        (3, format!("{first}\r\n"), 0, End::Unfit { line: 1 }),
        (3, format!("{first}\n{first}?discport=30303"), 1, End::Unfit { line: 2 }),
        (1, format!("{first}\n{last}"), 1, End::Full { line: 2 }),
        (1, format!("{first}\n{last}0"), 1, End::Unfit { line: 2 }),
        (0, first.clone(), 0, End::Full { line: 1 }),
        (0, first[1..].to_string(), 0, End::Unfit { line: 1 }),
    ] {
        list.fill(two);
        assert_eq!(read_enodes(&mut list[..room], text.as_bytes()), (count, end), "{text:?} in {room}");
        assert!(list.iter().enumerate().all(|(i, held)| *held == if i < count { one } else { two }));
    }
    assert_eq!(
        [End::Complete, End::Unfit { line: 7 }, End::Full { line: 7 }].map(End::number),
        [0, 22, 19].map(Number)
    );

    // 20 goes before 19, and nothing is written then
    let six = node(&[7; 16], 1, 2);
    let mut buf = [0x5a; 2 * ENODE_LINE];
    assert_eq!(write_enodes(&mut buf, &[one, six]), Err(Number(20)));
    assert_eq!(write_enodes(&mut [], &[one, six]), Err(Number(20)));
    assert_eq!(write_enodes(&mut buf[..text.len() - 1], &[one, two]), Err(Number(19)));
    assert_eq!(write_enodes(&mut buf, &[Node::EMPTY]), Err(Number(20)));
    assert_eq!(buf, [0x5a; 2 * ENODE_LINE]);
    assert_eq!(write_enodes(&mut buf, &[one, two]), Ok(text.len()));
    assert_eq!(buf[..text.len()], *text.as_bytes());
    assert!(buf[text.len()..].iter().all(|byte| *byte == 0x5a));
    assert_eq!(write_enodes(&mut [], &[]), Ok(0));
}

/// A record of any bytes.
fn any_node(random: &mut Random) -> Node {
    let endpoint = Endpoint {
        len: random.number() as u8,
        address: random.array(),
        udp: random.number() as u16,
        tcp: random.number() as u16,
    };
    Node { key: random.array(), endpoint }
}

fn end(end: enode::End) -> End {
    match end {
        enode::End::Complete => End::Complete,
        enode::End::Unfit { line } => End::Unfit { line: line as u64 },
        enode::End::Full { line } => End::Full { line: line as u64 },
    }
}

#[test]
fn read() {
    let total = common::calls(6_000);
    let mut random = Random::new(common::seed());
    let mut ends = [0; 23];
    for turn in 0..total {
        let most = *random.pick(&[1, 3, 10, 45]);
        let text = match turn % 40 {
            0 => {
                let length = random.below(400);
                random.bytes(length)
            }
            _ => enodes::text(&mut random, most),
        };
        let room = random.below(41);
        let before: Vec<Node> = (0..room).map(|_| any_node(&mut random)).collect();
        let mut list = before.clone();
        let (count, how) = read_enodes(&mut list, &text);
        let (nodes, wanted) = enode::read(room, &text);
        let shown = String::from_utf8_lossy(&text);
        assert_eq!((count, how), (nodes.len(), end(wanted)), "{shown:?} in {room}");
        let after: Vec<Node> =
            nodes.iter().map(common::node).chain(before[count..].iter().copied()).collect();
        assert_eq!(list, after, "{shown:?} in {room}");
        ends[usize::from(how.number().0)] += 1;
        if how == End::Complete {
            assert_eq!(enode_text(&list[..count]).unwrap(), enode::text(&nodes).unwrap().as_bytes());
        }
    }
    assert!([0, 19, 22].iter().all(|number| ends[*number] > 0), "{ends:?}");
    counted(total, "boot lists read agree");
}

/// A node to write, now and then with an address that isn't of 4 bytes or with bytes behind one that is.
fn written_node(random: &mut Random) -> Node {
    let mut node = common::node(&enodes::node(random));
    match random.below(30) {
        0 => node.endpoint.len = *random.pick(&[0, 1, 3, 5, 15, 16, 16, 17, 255]),
        1 => node.endpoint.address[4..].fill(9),
        _ => {}
    }
    node
}

/// The reference's node with an address of as many bytes.
fn theirs(node: &Node) -> packet::Node {
    let mut address = node.endpoint.address.to_vec();
    address.resize(usize::from(node.endpoint.len), 0);
    let endpoint = packet::Endpoint { address, udp: node.endpoint.udp, tcp: node.endpoint.tcp };
    packet::Node { endpoint, key: node.key.to_vec() }
}

#[test]
fn written() {
    let total = common::calls(6_000);
    let mut random = Random::new(common::seed());
    let mut numbers = [0; 21];
    for _ in 0..total {
        let count = *random.pick(&[0, 1, 1, 2, 3, 8, 40]);
        let nodes: Vec<Node> = (0..count).map(|_| written_node(&mut random)).collect();
        let others: Vec<packet::Node> = nodes.iter().map(theirs).collect();
        let needed = enode::text(&others).map_or(100, |text| text.len());
        let room = match random.below(6) {
            0 => 0,
            1 => needed.saturating_sub(1),
            2 => needed,
            3 => needed + 1,
            4 => random.below(needed + 1),
            _ => needed + random.below(1000),
        };
        let mut ours = random.bytes(room);
        let mut wanted = ours.clone();
        let answer = told(write_enodes(&mut ours, &nodes));
        assert_eq!(answer, enode::write(&others, &mut wanted), "{nodes:?} in {room}");
        assert_eq!(ours, wanted, "{nodes:?} in {room}");
        numbers[usize::from(reference::table::number(&answer))] += 1;
    }
    assert!([0, 19, 20].iter().all(|number| numbers[*number] > 0), "{numbers:?}");
    counted(total, "boot lists written agree");
}
