//! Readings A1 to A11: packets read and written.

mod common;

use common::*;
use reference::keccak::keccak256;
use reference::packet::*;
use reference::rlp::{write_integer, write_list, write_string};

const FROM: &str = "cb 847f000001 820cfa 8215a8";

/// The number that data of a type gets, or 0.
fn number(kind: u8, data: &str) -> u8 {
    outcome(&read(&datagram(kind, &bytes(data))))
}

/// A list of encoded items, as hex.
fn list(items: &[&str]) -> String {
    reference::hex(&write_list(&items.iter().map(|item| bytes(item)).collect::<Vec<_>>()))
}

#[test]
fn a_good_one_of_each() {
    assert_eq!(number(1, &list(&["04", FROM, FROM, "09"])), 0);
    assert_eq!(number(1, &list(&["04", FROM, FROM, "09", "80"])), 0);
    let hash = format!("a0{}", "11".repeat(32));
    assert_eq!(number(2, &list(&[FROM, &hash, "09"])), 0);
    assert_eq!(number(3, &list(&[&format!("b840{}", "22".repeat(64)), "09"])), 0);
    assert_eq!(number(4, "c2 c0 09"), 0);
    assert_eq!(number(5, "c1 09"), 0);
    assert_eq!(number(6, &list(&[&hash, "c0"])), 0);
}

#[test]
fn a1_9_beats_10() {
    // `[4, from-not-whole]`
    assert_eq!(number(1, &list(&["04", "c2 847f"])), 9);
    // a wrong version, then a from that isn't canonical inside
    assert_eq!(number(1, &list(&["00", "c2 8101", FROM, "09"])), 9);
    // a wrong field, then an outer item that isn't canonical
    assert_eq!(number(5, "c3 00 8101"), 9);
    // a wrong node, then a node that isn't whole
    assert_eq!(number(4, &list(&["c3 c0 c1 84", "09"])), 9);
    // nodes fine but for its own items, expiration missing
    assert_eq!(number(4, &list(&["c2 c1 84"])), 9);
}

#[test]
fn a2_lists_that_are_read() {
    // a list where an integer belongs: 10, its inside free
    assert_eq!(number(5, "c2 c1 84"), 10);
    // and where an endpoint's address belongs
    assert_eq!(number(1, &list(&["04", "c4 c1 84 01 01", FROM, "09"])), 10);
    // surplus items of an endpoint: whole and canonical is 10, else 9
    assert_eq!(number(1, &list(&["04", "c8 847f000001 01 01 01", FROM, "09"])), 10);
    assert_eq!(number(1, &list(&["04", "c8 847f000001 01 01 84", FROM, "09"])), 9);
    // the inside of a surplus list is free, so 10
    assert_eq!(number(1, &list(&["04", "c9 847f000001 01 01 c1 84", FROM, "09"])), 10);
    // strings for lists
    assert_eq!(number(1, &list(&["04", "84 7f000001", FROM, "09"])), 10);
    assert_eq!(number(4, "c2 80 09"), 10);
    assert_eq!(number(4, "c3 c1 80 09"), 10);
    // an endpoint with too few items
    assert_eq!(number(1, &list(&["04", "c6 847f000001 01", FROM, "09"])), 10);
    // Pong's `to` is read, Ping's items 3 and 4 aren't lists that are read
    assert_eq!(number(2, &list(&["c1 84"])), 9);
    assert_eq!(number(1, &list(&["04", FROM, FROM, "c1 84"])), 10);
}

#[test]
fn a3_items_after_the_known_ones() {
    for (kind, good) in [(5, vec!["09"]), (4, vec!["c0", "09"])] {
        let with = |item: &'static str| {
            let mut items = good.clone();
            items.push(item);
            number(kind, &list(&items))
        };
        assert_eq!(with("c1 84"), 0); // its inside is free
        assert_eq!(with("84 01"), 9); // not whole
        assert_eq!(with("81 01"), 9); // not canonical
    }
    let hash = format!("a0{}", "11".repeat(32));
    assert_eq!(number(6, &list(&[&hash, "c0", "c1 84"])), 0);
    assert_eq!(number(6, &list(&[&hash, "c0", "84 01"])), 9);
    // bytes after the outer list are free
    assert_eq!(number(5, "c1 09 81 01"), 0);
}

#[test]
fn a4_integers_and_data() {
    assert_eq!(number(5, "c2 8100"), 9);
    assert_eq!(number(5, "c2 817f"), 9);
    assert_eq!(number(5, "c1 00"), 10);
    assert_eq!(number(5, "c3 820001"), 10);
    assert_eq!(number(5, "c9 88 ffffffffffffffff"), 0);
    assert_eq!(number(5, "ca 89 01ffffffffffffffff"), 10);
    assert_eq!(number(1, &list(&["04", "c9 847f000001 82ffff 01", FROM, "09"])), 0);
    assert_eq!(number(1, &list(&["04", "ca 847f000001 83010000 01", FROM, "09"])), 10);
    assert_eq!(number(5, ""), 9);
    assert_eq!(number(5, "80"), 9);
    assert_eq!(number(5, "09"), 9);
    assert_eq!(number(5, "c2 09"), 9);
    assert_eq!(number(5, "c0"), 10);
    // lengths that no memory holds
    assert_eq!(number(5, "ff ffffffffffffffff"), 9);
    assert_eq!(number(5, "c9 bf ffffffffffffffff"), 9);
    assert_eq!(number(5, "f8 01 09"), 9);
    assert_eq!(number(5, "f9 0038 09"), 9);
}

#[test]
fn a5_a_list_as_enr_seq() {
    assert_eq!(number(1, &list(&["04", FROM, FROM, "09", "c0"])), 10);
    let hash = format!("a0{}", "11".repeat(32));
    assert_eq!(number(2, &list(&[FROM, &hash, "09", "c0"])), 10);
    assert_eq!(number(2, &list(&[FROM, &hash, "09", "07", "c0"])), 0);
}

#[test]
fn a6_unknown_types_and_expiration() {
    assert_eq!(number(0, "81"), 8);
    assert_eq!(number(7, "c1 09"), 8);
    assert_eq!(number(255, ""), 8);
    // expired and wrong: 10, not 11
    let key = keys(255, 1)[0];
    let mut log = Log::new();
    let damaged = datagram(5, &bytes("c1 00"));
    let line = |unix: u64, data: &[u8]| {
        format!("rx\t1\t{unix}\tc0000207\t1\t{}\t{}", reference::hex(&key), reference::hex(data))
    };
    assert_eq!(log.line(&line(5, &damaged)), "10");
    assert_eq!(log.line(&line(5, &datagram(5, &bytes("c1 04")))), "11");
    assert_eq!(log.line(&line(5, &datagram(5, &bytes("c1 05")))), "13");
}

#[test]
fn a7_the_third_item_of_to() {
    let ping = |to: &str| read(&datagram(1, &bytes(&list(&["04", FROM, to, "09"]))));
    assert_eq!(ping("c7 847f000001 01 80"), ping("c9 847f000001 01 82ffff"));
    assert_eq!(outcome(&ping("c7 847f000001 01 00")), 10);
    let Ok(Packet::Ping { to, .. }) = ping("c7 847f000001 01 80") else { panic!() };
    assert_eq!(to, Recipient { address: vec![127, 0, 0, 1], udp: 1 });
}

fn endpoint(address: &[u8]) -> Endpoint {
    Endpoint { address: address.to_vec(), udp: 7, tcp: 8 }
}

fn unknown() -> Sender {
    Sender { address: None, udp: 7, tcp: 8 }
}

fn node(address: &[u8], key: &[u8]) -> Node {
    Node { endpoint: endpoint(address), key: key.to_vec() }
}

fn recipient() -> Recipient {
    Recipient { address: vec![1; 16], udp: 9 }
}

/// A writable packet of each type, with and without what is optional.
fn writable() -> Vec<Packet> {
    let record = write_list(&[vec![0x81; 297]]);
    assert_eq!(record.len(), 300);
    vec![
        Packet::Ping {
            version: 4,
            from: endpoint(&V4).into(),
            to: recipient(),
            expiration: 0,
            enr_seq: None,
        },
        Packet::Ping {
            version: 4,
            from: endpoint(&[2; 16]).into(),
            to: recipient(),
            expiration: 1,
            enr_seq: Some(0),
        },
        Packet::Ping { version: 4, from: unknown(), to: recipient(), expiration: 1, enr_seq: Some(2) },
        Packet::Pong { to: recipient(), ping_hash: vec![3; 32], expiration: 128, enr_seq: None },
        Packet::Pong { to: recipient(), ping_hash: vec![3; 32], expiration: 5, enr_seq: Some(u64::MAX) },
        Packet::FindNode { target: vec![4; 64], expiration: u64::MAX },
        Packet::Neighbors { nodes: vec![], expiration: 5 },
        Packet::Neighbors { nodes: vec![node(&V4, &[5; 64]), node(&[6; 16], &[7; 64])], expiration: 5 },
        Packet::EnrRequest { expiration: 6 },
        Packet::EnrResponse { request_hash: vec![8; 32], record: vec![0xc0] },
        Packet::EnrResponse { request_hash: vec![8; 32], record },
    ]
}

/// "What is written reads back as the same fields; an accepted packet of the form the box writes,
/// written anew with its signature, gives the same bytes."
#[test]
fn written_reads_back() {
    for packet in writable() {
        let whole = joined(&[9; 65], &body(&packet).unwrap()).unwrap();
        assert_eq!(whole[..32], keccak256(&whole[32..]));
        assert_eq!(whole[32..97], [9; 65]);
        assert_eq!(whole[97], packet.number());
        let fields = read(&whole).unwrap();
        assert_eq!(fields, packet);
        assert_eq!(joined(&whole[32..97], &body(&fields).unwrap()).unwrap(), whole);
    }
}

#[test]
fn a8_writers_20_then_19() {
    for packet in writable() {
        let needed = body(&packet).unwrap().len();
        let mut room = vec![0xaa; needed + 3];
        assert_eq!(write(&packet, &mut room[..needed - 1]), Err(19));
        assert!(room.iter().all(|byte| *byte == 0xaa), "nothing is written");
        assert_eq!(write(&packet, &mut room), Ok(needed));
        assert_eq!(room[..needed], body(&packet).unwrap());
        assert_eq!(room[needed..], [0xaa; 3], "bytes past what is written stay");
    }
    let refused = [
        Packet::Ping {
            version: 4,
            from: endpoint(&[1; 5]).into(),
            to: recipient(),
            expiration: 0,
            enr_seq: None,
        },
        Packet::Ping {
            version: 4,
            from: endpoint(&[]).into(),
            to: recipient(),
            expiration: 0,
            enr_seq: None,
        },
        Packet::Ping {
            version: 4,
            from: unknown(),
            to: Recipient { address: vec![], udp: 1 },
            expiration: 0,
            enr_seq: None,
        },
        Packet::Neighbors { nodes: vec![node(&[], &[5; 64])], expiration: 5 },
        Packet::Pong {
            to: Recipient { address: vec![], udp: 1 },
            ping_hash: vec![3; 32],
            expiration: 0,
            enr_seq: None,
        },
        Packet::Pong { to: recipient(), ping_hash: vec![3; 31], expiration: 0, enr_seq: None },
        Packet::FindNode { target: vec![4; 65], expiration: 0 },
        Packet::Neighbors { nodes: vec![node(&V4, &[5; 64]); 13], expiration: 5 },
        Packet::Neighbors { nodes: vec![node(&V4, &[5; 63])], expiration: 5 },
        Packet::EnrResponse { request_hash: vec![8; 33], record: vec![0xc0] },
        Packet::EnrResponse { request_hash: vec![8; 32], record: vec![] },
        Packet::EnrResponse { request_hash: vec![8; 32], record: vec![0x80] },
        Packet::EnrResponse { request_hash: vec![8; 32], record: vec![0xc0, 0xc0] },
        Packet::EnrResponse { request_hash: vec![8; 32], record: vec![0xc1] },
        Packet::EnrResponse { request_hash: vec![8; 32], record: vec![0xf8, 0] },
        Packet::EnrResponse { request_hash: vec![8; 32], record: write_list(&[vec![1; 298]]) },
    ];
    for packet in refused {
        assert_eq!(write(&packet, &mut []), Err(20), "{packet:?}");
        assert_eq!(write(&packet, &mut [0; 2000]), Err(20), "{packet:?}");
    }
    // twelve are written, and a ping's version is 4 whatever the value says
    let twelve = Packet::Neighbors { nodes: vec![node(&V4, &[5; 64]); 12], expiration: 5 };
    assert!(body(&twelve).is_ok());
    let five = Packet::Ping {
        version: 5,
        from: endpoint(&V4).into(),
        to: recipient(),
        expiration: 0,
        enr_seq: None,
    };
    assert_eq!(body(&five), body(&writable()[0]));
}

/// Document 02, C-13: an empty address is unknown in Ping's `from`, with both ports, and 10 elsewhere.
#[test]
fn c13_an_empty_address() {
    let ping = |from: &str, to: &str| read(&datagram(1, &bytes(&list(&["04", from, to, "09"]))));
    let Ok(Packet::Ping { from, to, .. }) = ping("c7 80 820cfa 8215a8", FROM) else { panic!() };
    assert_eq!(from, Sender { address: None, udp: 3322, tcp: 5544 });
    assert_eq!(to, Recipient { address: vec![127, 0, 0, 1], udp: 3322 });
    for (from, number) in [
        ("c3 c0 01 02", 10),           // a list for the address
        ("c3 00 01 02", 10),           // one byte
        ("c8 857f00000101 01 02", 10), // five
        ("c4 8100 01 02", 9),
        ("c2 80 01", 10), // a port is missing
        ("c4 80 01 02 03", 10),
        ("c5 80 01 02 8203", 9),
        ("c0", 10),
        ("80", 10),
    ] {
        assert_eq!(outcome(&ping(from, FROM)), number, "{from}");
    }
    let hash = format!("a0{}", "11".repeat(32));
    assert_eq!(outcome(&ping(FROM, "c3 80 01 02")), 10);
    assert_eq!(outcome(&ping("c3 80 01 02", "c3 80 01 02")), 10);
    assert_eq!(number(2, &list(&["c3 80 01 02", &hash, "09"])), 10);
    let node = list(&["80", "01", "02", &format!("b840{}", "22".repeat(64))]);
    assert_eq!(number(4, &list(&[&list(&[&node]), "09"])), 10);
    // in a log; the address beside a datagram is never empty
    let mut log = Log::new();
    let key = keys(255, 1)[0];
    let whole = |from: &str, to: &str| datagram(1, &bytes(&list(&["04", from, to, "09"])));
    assert_eq!(log.rx(1, &key, &whole("c3 80 01 02", FROM)), "0\tpong\tping");
    assert_eq!(log.rx(1, &key, &whole(FROM, "c3 80 01 02")), "10");
    assert_eq!(log.rx_from(1, &[], PORT, &key, &whole("c3 80 01 02", FROM)), "21");
}

#[test]
fn a8_join_looks_only_at_lengths() {
    let mut room = [0xaa; 1281];
    assert_eq!(join(&[1; 64], &[1], &mut room), Err(20));
    assert_eq!(join(&[1; 66], &[1], &mut room), Err(20));
    assert_eq!(join(&[1; 65], &[], &mut room), Err(20));
    assert_eq!(join(&[1; 65], &[1; 1184], &mut room), Err(20));
    assert_eq!(join(&[1; 65], &[1; 1183], &mut room[..1279]), Err(19));
    assert_eq!(room, [0xaa; 1281]);
    assert_eq!(join(&[1; 65], &[0xff; 1183], &mut room), Ok(1280));
    assert_eq!(room[1280], 0xaa);
    assert_eq!(join(&[1; 65], &[0xff], &mut room), Ok(98));
}

#[test]
fn records_of_300_and_301() {
    let response = |record: &[u8]| {
        let data = write_list(&[write_string(&[1; 32]), record.to_vec()]);
        read(&datagram(6, &data))
    };
    let record = write_list(&[vec![0xff; 297]]); // its inside isn't examined
    assert_eq!(response(&record), Ok(Packet::EnrResponse { request_hash: vec![1; 32], record }));
    assert_eq!(response(&write_list(&[vec![0xff; 298]])), Err(10));
    assert_eq!(response(&write_string(b"abc")), Err(10));
}

#[test]
fn a9_hash_before_key_before_address() {
    let mut log = Log::new();
    let own = reference::hex(&OWN);
    let hash = "11".repeat(32);
    assert_eq!(log.line("sent\t1\t00\t00\t1\t1\t00"), "4");
    assert_eq!(log.line(&format!("sent\t1\t00\t00\t1\t1\t{hash}")), "5");
    assert_eq!(log.line(&format!("sent\t1\t{own}\t00\t1\t1\t{hash}")), "6");
    assert_eq!(log.line(&format!("sent\t1\t{own}\t00000000\t1\t1\t{hash}")), "7");
    // rx: 3 before 4 before 5 before 6 before 7 before 8
    assert_eq!(log.line("rx\t1\t0\t00\t1\t-\t00"), "3");
    assert_eq!(log.line(&format!("rx\t1\t0\t00\t1\t-\t{}", "00".repeat(98))), "4");
    let unknown = reference::hex(&datagram(9, &[]));
    assert_eq!(log.line(&format!("rx\t1\t0\t00\t1\t-\t{unknown}")), "5");
    assert_eq!(log.line(&format!("rx\t1\t0\t00\t1\t{own}\t{unknown}")), "6");
    assert_eq!(log.line(&format!("rx\t1\t0\t00000000\t1\t{own}\t{unknown}")), "7");
    let key = reference::hex(&keys(255, 1)[0]);
    assert_eq!(log.line(&format!("rx\t1\t0\t00000000\t1\t{key}\t{unknown}")), "8");
}

#[test]
fn lengths_of_datagrams() {
    let mut log = Log::new();
    let key = keys(255, 1)[0];
    let of_length = |length: usize| {
        let mut data = bytes("c1 09"); // what follows the list is free
        data.resize(length.saturating_sub(98), 0);
        datagram(5, &data)
    };
    assert_eq!(log.rx(1, &key, &of_length(98)[..97]), "3");
    assert_eq!(log.rx(1, &key, &of_length(98)), "9"); // no data
    assert_eq!(log.rx(1, &key, &of_length(1280)), "13");
    let mut long = of_length(1280);
    long.push(0);
    assert_eq!(log.rx(1, &key, &long), "3");
}

#[test]
fn a10_mapped_addresses_differ() {
    let key = keys(255, 1)[0];
    let mapped = bytes("00000000000000000000ffff c0000207");
    let mut log = Log::new();
    assert_eq!(log.meet(1, &key), "0\tseat");
    assert_eq!(log.sent_to(2, &key, &mapped, PORT), "16");
    assert_eq!(log.rx_from(2, &mapped, PORT, &key, &find_node()), "13");
    // an all-zero key is a key like any other
    assert_eq!(log.rx(3, &[0; 64], &ping(0)), "0\tpong\tping");
}

#[test]
fn a11_13_to_15_nodes_are_accepted() {
    let small = write_list(&[write_string(&V4), write_integer(1), write_integer(1), write_string(&[5; 64])]);
    let data = |count| write_list(&[write_list(&vec![small.clone(); count]), write_integer(1)]);
    for count in [13, 14, 15] {
        let whole = datagram(4, &data(count));
        assert!(whole.len() <= LARGEST);
        let Ok(Packet::Neighbors { nodes, .. }) = read(&whole) else { panic!("neighbors") };
        assert_eq!(nodes.len(), count);
    }
    assert!(98 + data(16).len() > LARGEST);
}
