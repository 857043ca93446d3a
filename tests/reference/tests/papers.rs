//! Document 01's own cases: P1 to P12, its example printout and its tempting slips.

mod common;

use common::*;
use reference::hex;
use reference::keccak::keccak256;
use reference::log::replay;
use reference::packet::{body, joined, read, Endpoint, Node, Packet};
use reference::rlp::{integer, item, items, write_integer, write_list, write_string, Kind};
use reference::table::{bucket_number, distance, log_distance};

/// The number that an item says as an integer of up to 64 bits.
fn read_integer(text: &str) -> Option<u64> {
    let data = bytes(text);
    let (item, rest) = item(&data)?;
    assert!(rest.is_empty());
    integer(&item, 8)
}

#[test]
fn p1_integer_0_is_80() {
    assert_eq!(write_integer(0), bytes("80"));
    assert_eq!(read_integer("80"), Some(0));
}

#[test]
fn p2_127_is_7f_and_128_is_81_80() {
    assert_eq!(write_integer(127), bytes("7f"));
    assert_eq!(write_integer(128), bytes("8180"));
    assert_eq!(read_integer("7f"), Some(127));
    assert_eq!(read_integer("8180"), Some(128));
}

#[test]
fn p3_1024_is_82_04_00() {
    assert_eq!(write_integer(1024), bytes("820400"));
    assert_eq!(read_integer("820400"), Some(1024));
}

#[test]
fn p4_00_and_81_7f_are_refused_as_integers() {
    assert_eq!(read_integer("00"), None);
    assert_eq!(read_integer("817f"), None);
    // 00 as ENRRequest's expiration is 10, 81 7f is 9 (A4)
    assert_eq!(read(&datagram(5, &bytes("c100"))), Err(10));
    assert_eq!(read(&datagram(5, &bytes("c2817f"))), Err(9));
}

#[test]
fn p5_strings_of_55_and_56() {
    assert_eq!(write_string(&[1; 55])[..1], bytes("b7"));
    assert_eq!(write_string(&[1; 56])[..2], bytes("b838"));
    for length in [55, 56] {
        let written = write_string(&vec![1; length]);
        let (item, rest) = item(&written).unwrap();
        assert_eq!((item.kind, item.payload.len(), rest.len()), (Kind::String, length, 0));
    }
    // 55 bytes in the long form aren't canonical
    assert!(item(&[&bytes("b837")[..], &[1; 55]].concat()).is_none());
}

#[test]
fn p6_lists_of_55_and_56() {
    assert_eq!(write_list(&[vec![1; 55]])[..1], bytes("f7"));
    assert_eq!(write_list(&[vec![1; 56]])[..2], bytes("f838"));
    for length in [55, 56] {
        let written = write_list(&[vec![1; length]]);
        let (item, _) = item(&written).unwrap();
        assert_eq!((item.kind, items(item.payload).unwrap().len()), (Kind::List, length));
    }
    assert!(item(&[&bytes("f837")[..], &[1; 55]].concat()).is_none());
}

#[test]
fn p7_the_empty_list_is_c0() {
    assert_eq!(write_list(&[]), bytes("c0"));
    assert!(items(item(&bytes("c0")).unwrap().0.payload).unwrap().is_empty());
}

#[test]
fn p8_buckets_of_distances() {
    let number = |value: u8, at: usize| {
        let mut distance = [0; 32];
        distance[at] = value;
        bucket_number(&distance)
    };
    assert_eq!(number(1, 31), Some(0));
    assert_eq!(number(2, 31), Some(1));
    assert_eq!(number(3, 31), Some(1));
    assert_eq!(number(0x80, 0), Some(255));
    assert_eq!(number(0xff, 0), Some(255));
    assert_eq!(number(0x7f, 0), Some(254));
    assert_eq!(number(1, 30), Some(8));
    assert_eq!(number(0, 0), None);
}

#[test]
fn p9_a_proof_43200000_ms_old_holds() {
    let key = keys(255, 1)[0];
    let mut log = Log::new();
    assert_eq!(log.meet(5, &key), "0\tseat");
    assert_eq!(log.rx(5 + 43_200_001, &key, &find_node()), "13");
    assert_eq!(log.rx(5 + 43_200_000, &key, &find_node()), "0\tfind");
}

#[test]
fn p10_a_pong_after_500_ms_is_in_time() {
    let key = keys(255, 1)[0];
    let mut log = Log::new();
    assert_eq!(log.sent(100, &key), "0");
    assert_eq!(log.pong(601, &key), "15");
    assert_eq!(log.pong(600, &key), "0\tseat");
}

#[test]
fn p11_the_sizes_1205_and_1296() {
    let node =
        Node { endpoint: Endpoint { address: vec![255; 16], udp: 65535, tcp: 65535 }, key: vec![255; 64] };
    let neighbors = |count| Packet::Neighbors { nodes: vec![node.clone(); count], expiration: u64::MAX };
    let twelve = joined(&[0; 65], &body(&neighbors(12)).unwrap()).unwrap();
    assert_eq!(twelve.len(), 1205);
    assert_eq!(read(&twelve), Ok(neighbors(12)));
    // thirteen aren't written; by hand they make 98 + 3 + 3 + 13 * 91 + 9
    assert_eq!(body(&neighbors(13)), Err(20));
    let one = write_list(&[
        write_string(&[255; 16]),
        write_integer(65535),
        write_integer(65535),
        write_string(&[255; 64]),
    ]);
    assert_eq!(one.len(), 91);
    let data = write_list(&[write_list(&vec![one; 13]), write_integer(u64::MAX)]);
    assert_eq!(98 + data.len(), 1296);
}

#[test]
fn p12_expiration_9() {
    let key = hex(&keys(255, 1)[0]);
    let ping = hex(&ping(9));
    let mut log = Log::new();
    assert_eq!(log.line(&format!("rx\t1\t10\tc0000207\t1\t{key}\t{ping}")), "11");
    assert_eq!(log.line(&format!("rx\t1\t9\tc0000207\t1\t{key}\t{ping}")), "0\tpong\tping");
}

/// C-14: "the logarithmic distance is 0 for equal hashes and otherwise bucket number plus one, 1 to 256"
#[test]
fn c14_logarithmic_distances() {
    let lengths = |value: u8, at: usize| {
        let mut distance = [0; 32];
        distance[at] = value;
        (log_distance(&distance), bucket_number(&distance))
    };
    assert_eq!(lengths(0, 0), (0, None));
    assert_eq!(lengths(1, 31), (1, Some(0)));
    assert_eq!(lengths(2, 31), (2, Some(1)));
    assert_eq!(lengths(3, 31), (2, Some(1)));
    assert_eq!(lengths(0x80, 16), (128, Some(127)));
    assert_eq!(lengths(1, 15), (129, Some(128)));
    assert_eq!(lengths(0x80, 0), (256, Some(255)));
}

/// "A table of 16 with one node pinged at 100 that answered at 250, key starting 01 to 08, distance
/// at least 2^255"; its second field is 256 since C-14
#[test]
fn the_example_printout() {
    // an own key that is far enough from the node
    let mut key = [0x33; 64];
    key[..8].copy_from_slice(&[1, 2, 3, 4, 5, 6, 7, 8]);
    let own = (0..=255)
        .map(|byte| [byte; 64])
        .find(|own| bucket_number(&distance(&keccak256(own), &keccak256(&key))) == Some(255))
        .unwrap();
    let hash = [0x44; 32];
    let log = format!(
        "own\t16\t{}\nsent\t100\t{}\tc0000207\t30303\t30303\t{}\nrx\t250\t0\tc0000207\t30303\t{}\t{}\n",
        hex(&own),
        hex(&key),
        hex(&hash),
        hex(&key),
        hex(&pong(&hash)),
    );
    let expected = "0\n0\n0\tseat\n\
        table\t16\t250\t1\t0\n\
        seat\t256\t1\t0102030405060708\tc0000207\t30303\t30303\t250\t250\tquiet\n";
    assert_eq!(replay(log.as_bytes()), expected);
}

/// "XOR of raw keys, not of their hashes"
#[test]
fn slip_distance_of_raw_keys() {
    let key = keys(250, 1)[0];
    let mut log = Log::new();
    log.sent(1, &key);
    assert!(log.line_of(&key).unwrap().starts_with("wait\t251\t1\t"));
}

/// "pinging a held node where its last packet came from, so that one replayed packet from elsewhere
/// unseats a live node"
#[test]
fn slip_replayed_packet_from_elsewhere() {
    let key = keys(255, 1)[0];
    let mut log = Log::new();
    log.meet(1, &key);
    // its ping, replayed from another port: a pong is due there, no ping, and the entry stays
    let before = log.line_of(&key);
    assert_eq!(log.rx_from(2, &address_of(&key), 1, &key, &ping(0)), "0\tpong");
    assert_eq!(log.line_of(&key), before);
    // a ping sent there is refused, so a sweep has nothing to remove
    assert_eq!(log.sent_to(3, &key, &address_of(&key), 1), "16");
    assert_eq!(log.sweep(2000), "0");
    assert_eq!(log.line_of(&key), before);
}

/// "sweeping at exactly 500"
#[test]
fn slip_sweep_at_500() {
    let key = keys(255, 1)[0];
    let mut log = Log::new();
    log.sent(100, &key);
    log.sweep(600);
    assert!(log.line_of(&key).is_some());
    log.sweep(601);
    assert!(log.line_of(&key).is_none());
}

/// "a waiting node that jumps the line because it was seen again"
#[test]
fn slip_jumping_the_line() {
    let keys = keys(255, 18);
    let mut log = Log::new();
    for key in &keys[..16] {
        assert_eq!(log.meet(1, key), "0\tseat");
    }
    for key in &keys[16..] {
        assert!(log.meet(2, key).starts_with("0\twait\t"));
    }
    assert_eq!(log.rx(3, &keys[16], &find_node()), "0\tfind");
    assert_eq!(log.order("wait"), names(&keys[16..]));
    assert!(log.line_of(&keys[16]).unwrap().ends_with("\t3\t2\tquiet"));
}
