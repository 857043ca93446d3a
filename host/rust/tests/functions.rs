//! Every function once on good and on bad input, with figures by hand.

use std::net::SocketAddr;

use coghammer::{
    keccak256, write, Accepted, Counters, Endpoint, Held, Listed, MonotonicMillis, Node, Number, Packet,
    Rank, Standing, State, Table, UnixSeconds,
};

const OWN: [u8; 64] = [1; 64];
const PEER: [u8; 64] = [2; 64];
const ADDRESS: [u8; 4] = [192, 0, 2, 7];
const SIGNATURE: [u8; 65] = [3; 65];
const UNIX: UnixSeconds = UnixSeconds(1_700_000_000);

fn datagram(body: &[u8]) -> Vec<u8> {
    write::in_vec(|buf| write::join(buf, &SIGNATURE, body)).unwrap()
}

fn ping(expiration: u64) -> Vec<u8> {
    datagram(
        &write::in_vec(|buf| {
            write::ping(buf, Some(&ADDRESS), 30303, 30304, &ADDRESS, 9, expiration, Some(5))
        })
        .unwrap(),
    )
}

fn pong(hash: &[u8]) -> Vec<u8> {
    datagram(&write::in_vec(|buf| write::pong(buf, &ADDRESS, 9, hash, UNIX.0, None)).unwrap())
}

#[test]
fn hashes() {
    let empty = "c5d2460186f7233c927e7db2dcc703c0e500b653ca82273b7bfad8045d85a470";
    assert_eq!(reference::hex(&keccak256(b"")), empty);
    let abc = "4e03657aea45a94fc7d47ba826c8d667c0d1e6e33a64a036ec44f58fa12d6c45";
    assert_eq!(reference::hex(&keccak256(b"abc")), abc);
}

#[test]
fn fresh_tables() {
    for buckets in [1, 16, 256] {
        let table = Table::new(&OWN, buckets).unwrap();
        assert_eq!(table.bytes().len(), Table::size(buckets));
        assert_eq!(table.bytes()[..32], keccak256(&OWN));
    }
    for (key, buckets, number) in [
        (&OWN[..], 0, 1),
        (&OWN, 257, 1),
        (&OWN, usize::MAX, 1),
        (&OWN[..63], 16, 5),
        (&[], 0, 1),
        (&[], 1, 5),
    ] {
        assert_eq!(Table::new(key, buckets), Err(Number(number)));
    }
}

/// C-16, in a table of bucket 255 alone: the third of a range waits beside free entries, and takes the one that a
/// sweep frees.
#[test]
fn ranges() {
    let mut table = Table::new(&OWN, 1).unwrap();
    let mut counters = Counters::default();
    let at = MonotonicMillis;
    let hash = [4; 32];
    let mapped = [0, 0, 0, 0, 0, 0, 0, 0, 0, 0, 255, 255, 192, 0, 2, 4];
    // keys of other buckets get 12
    let mut names = (2..).map(|name| [name; 64]);
    let mut sent = |table: &mut Table, address: &[u8]| loop {
        let key = names.next().unwrap();
        match table.ping_sent(&mut Counters::default(), at(1), &key, address, 9, 9, &hash) {
            Err(Number(12)) => {}
            answer => return answer.map(|_| key).unwrap(),
        }
    };
    let places = [
        (&[192, 0, 2, 1][..], Standing::TookEntry),
        (&[192, 0, 2, 2], Standing::TookEntry),
        (&[192, 0, 2, 3], Standing::RangeFull),
        (&[192, 0, 3, 1], Standing::TookEntry),
        (&mapped, Standing::TookEntry),
    ];
    let keys = places.map(|(address, standing)| {
        let key = sent(&mut table, address);
        let answer = table.datagram(&mut counters, at(1), UNIX, address, 9, &key, &pong(&hash));
        assert_eq!(answer, Ok(Accepted::Pong(standing)));
        key
    });
    let rank = |table: &Table, key: &[u8; 64]| table.find(key).unwrap().map(|held| held.rank);
    assert_eq!(rank(&table, &keys[2]), Some(Rank::Replacement));
    assert_eq!(table.ping_sent(&mut counters, at(1), &keys[0], places[0].0, 9, 9, &hash), Ok(()));
    assert_eq!(table.sweep(&mut counters, at(502)), Ok(()));
    assert_eq!([0, 2].map(|node| rank(&table, &keys[node])), [None, Some(Rank::Entry)]);
}

/// A number in words, as an error of any host.
#[test]
fn numbers_in_words() -> Result<(), Box<dyn std::error::Error>> {
    assert_eq!(Number(15).to_string(), "15: the pong came too late");
    assert_eq!(Number(99).text(), "no answer number");
    let fails = || -> Result<(), Box<dyn std::error::Error>> { Ok(Table::new(&OWN, 0).map(|_| ())?) };
    assert!(fails().unwrap_err().to_string().starts_with("1: "));
    Ok(())
}

/// A socket's addresses; an IPv4-mapped one is its 4 bytes.
#[test]
fn socket_addresses() {
    for (text, len) in [("192.0.2.7:30303", 4), ("[2001:db8::d]:30303", 16)] {
        let address: SocketAddr = text.parse().unwrap();
        let endpoint = Endpoint::at(address, 9);
        assert_eq!((endpoint.ip().len(), endpoint.udp, endpoint.tcp), (len, 30303, 9));
        assert_eq!(endpoint.socket_addr(), Some(address));
    }
    let mapped: SocketAddr = "[::ffff:192.0.2.7]:30303".parse().unwrap();
    assert_eq!(Endpoint::at(mapped, 0).ip(), ADDRESS);
    assert_eq!(Endpoint::default().socket_addr(), None);
    // a datagram from a socket's address is the datagram from its bytes, an absent signer the empty key
    let address: SocketAddr = "192.0.2.7:30303".parse().unwrap();
    for signer in [Some(&PEER), None] {
        let (mut one, mut two) = (Table::new(&OWN, 16).unwrap(), Table::new(&OWN, 16).unwrap());
        let (mut counters, mut others) = (Counters::default(), Counters::default());
        let packet = ping(UNIX.0);
        let from_socket = one.receive(&mut counters, MonotonicMillis(5), UNIX, address, signer, &packet);
        let key = signer.map_or(&[][..], |key| key);
        let from_bytes = two.datagram(&mut others, MonotonicMillis(5), UNIX, &ADDRESS, 30303, key, &packet);
        assert_eq!((from_socket, &one, &counters), (from_bytes, &two, &others));
        assert_eq!(from_socket.is_ok(), signer.is_some());
    }
}

/// Ping sent, its pong, a request, a sweep.
#[test]
fn one_peer() {
    let mut table = Table::new(&OWN, 16).unwrap();
    let mut counters = Counters::default();
    let hash = [4; 32];
    let at = MonotonicMillis;
    let sent = |table: &mut Table, counters: &mut Counters, now| {
        table.ping_sent(counters, at(now), &PEER, &ADDRESS, 30303, 30304, &hash)
    };
    let rx = |table: &mut Table, counters: &mut Counters, now, datagram: &[u8]| {
        table.datagram(counters, at(now), UNIX, &ADDRESS, 30303, &PEER, datagram)
    };
    assert_eq!(rx(&mut table, &mut counters, 50, &ping(UNIX.0)), Ok(Accepted::Ping { ping_due: true }));
    assert_eq!(rx(&mut table, &mut counters, 50, &ping(UNIX.0 - 1)), Err(Number(11)));
    assert_eq!(sent(&mut table, &mut counters, 100), Ok(()));
    assert_eq!(sent(&mut table, &mut counters, 100), Err(Number(17)));
    assert_eq!(table.head(&PEER), Ok(None));
    let node = Node { key: PEER, endpoint: Endpoint::new(&ADDRESS, 30303, 30304).unwrap() };
    let waiting = table.find(&PEER).unwrap().unwrap();
    assert_eq!((waiting.node, waiting.rank, waiting.place), (node, Rank::Replacement, 1));
    assert_eq!(rx(&mut table, &mut counters, 99, &pong(&hash)), Err(Number(2)));
    assert_eq!(rx(&mut table, &mut counters, 601, &pong(&hash)), Err(Number(15)));
    assert_eq!(rx(&mut table, &mut counters, 600, &pong(&[5; 32])), Err(Number(14)));
    assert_eq!(rx(&mut table, &mut counters, 600, &pong(&hash)), Ok(Accepted::Pong(Standing::TookEntry)));
    assert_eq!(rx(&mut table, &mut counters, 600, &ping(UNIX.0)), Ok(Accepted::Ping { ping_due: false }));

    assert_eq!(node.endpoint.ip(), ADDRESS);
    let head = table.head(&PEER).unwrap().unwrap();
    assert_eq!((head.node, head.ping_out), (node, None));
    assert_eq!(table.find(&PEER), Ok(Some(Held { rank: Rank::Entry, ..waiting })));
    assert_eq!(table.find(&[5; 64]), Ok(None));
    let state = State { clock: at(600), buckets: 16, entries: 1, replacements: 0 };
    assert_eq!(table.state(), Ok(state));
    let row =
        format!("seat\t{}\t1\t0202020202020202\tc0000207\t30303\t30304\t600\t600\tquiet", waiting.distance);
    assert_eq!(table.printout(), Ok(format!("table\t16\t600\t1\t0\n{row}\n")));
    assert_eq!(table.closest(&OWN), Ok(vec![node]));
    let mut list = [Node::EMPTY; 17];
    assert_eq!(table.closest_in(&mut list, &OWN), Ok(Listed { count: 1, distances: 1 }));
    assert_eq!(list[..2], [node, Node::EMPTY]);
    assert_eq!(table.closest(&OWN[1..]), Err(Number(5)));
    assert_eq!(table.closest_in(&mut [Node::EMPTY; 15], &OWN), Err(Number(19)));

    let find = datagram(&write::in_vec(|buf| write::find_node(buf, &OWN, UNIX.0)).unwrap());
    assert_eq!(rx(&mut table, &mut counters, 700, &find), Ok(Accepted::FindNode));
    let nodes = datagram(&write::in_vec(|buf| write::neighbors(buf, &[node], UNIX.0)).unwrap());
    assert_eq!(rx(&mut table, &mut counters, 700, &nodes), Ok(Accepted::Neighbors));
    assert_eq!(write::reply_parts(16).collect::<Vec<_>>(), [0..12, 12..16]);
    assert!(write::reply_parts(0).eq(std::iter::once(0..0)));
    let enr = datagram(&write::in_vec(|buf| write::enr_request(buf, UNIX.0)).unwrap());
    assert_eq!(rx(&mut table, &mut counters, 700, &enr), Ok(Accepted::EnrRequest));
    let record = datagram(&write::in_vec(|buf| write::enr_response(buf, &hash, &[0xc1, 5])).unwrap());
    assert_eq!(rx(&mut table, &mut counters, 700, &record), Ok(Accepted::EnrResponse));

    assert_eq!(sent(&mut table, &mut counters, 800), Ok(()));
    assert_eq!(table.head(&PEER).unwrap().unwrap().ping_out, Some(at(800)));
    assert_eq!(rx(&mut table, &mut counters, 800, &pong(&hash)), Ok(Accepted::Pong(Standing::Tail)));
    assert_eq!(sent(&mut table, &mut counters, 900), Ok(()));
    assert_eq!(table.sweep(&mut counters, at(1400)), Ok(()));
    assert_eq!(table.closest(&OWN), Ok(vec![node]));
    assert_eq!(table.sweep(&mut counters, at(1401)), Ok(()));
    assert_eq!(table.closest(&OWN), Ok(vec![]));
    assert_eq!(table.sweep(&mut counters, at(1400)), Err(Number(2)));

    let mut wanted = [0; 22];
    for (number, count) in [(0, 13), (2, 2), (11, 1), (14, 1), (15, 1), (17, 1)] {
        wanted[number] = count;
    }
    assert_eq!(counters.counts, wanted);
    counters.clear();
    assert_eq!(counters, Counters::default());
}

/// Address or key, key or address, datagram or hash; the answer number.
type Case<'a> = (&'a [u8], &'a [u8], &'a [u8], u8);

#[test]
fn refused_arguments() {
    let mut table = Table::new(&OWN, 16).unwrap();
    let fresh = table.clone();
    let mut counters = Counters::default();
    let good = ping(UNIX.0);
    let mut broken = good.clone();
    broken[0] ^= 1;
    let unknown = datagram(&[7, 0xc0]);
    let not_a_list = datagram(&[1, 0x80]);
    let no_fields = datagram(&[1, 0xc0]);
    let cases: [Case; 12] = [
        (&ADDRESS, &PEER, &[], 3),
        (&ADDRESS, &PEER, &good[..97], 3),
        (&ADDRESS, &PEER, &[0; 1281], 3),
        (&ADDRESS, &PEER, &broken, 4),
        (&ADDRESS, &[], &good, 5),
        (&ADDRESS, &PEER[1..], &good, 5),
        (&[], &PEER, &good, 6),
        (&ADDRESS[1..], &PEER, &good, 6),
        (&ADDRESS, &OWN, &good, 7),
        (&ADDRESS, &PEER, &unknown, 8),
        (&ADDRESS, &PEER, &not_a_list, 9),
        (&ADDRESS, &PEER, &no_fields, 10),
    ];
    for (address, signer, datagram, number) in cases {
        let answer = table.datagram(&mut counters, MonotonicMillis(1), UNIX, address, 1, signer, datagram);
        assert_eq!(answer, Err(Number(number)));
    }
    let cases: [Case; 4] = [
        (&PEER, &ADDRESS, &[0; 31], 4),
        (&PEER[1..], &ADDRESS, &[0; 32], 5),
        (&PEER, &ADDRESS[1..], &[0; 32], 6),
        (&OWN, &ADDRESS, &[0; 32], 7),
    ];
    for (key, address, hash, number) in cases {
        let answer = table.ping_sent(&mut counters, MonotonicMillis(1), key, address, 1, 2, hash);
        assert_eq!(answer, Err(Number(number)));
    }
    assert_eq!(table.head(&PEER[1..]), Err(Number(5)));
    assert_eq!(table.head(&OWN), Err(Number(7)));
    assert_eq!(table.find(&PEER[1..]), Err(Number(5)));
    assert_eq!(table.find(&OWN), Err(Number(7)));
    assert_eq!(table.printout_in(&mut [0; Table::printout_size(16) - 1]), Err(Number(19)));
    assert_eq!(table, fresh);

    let mut bytes = fresh.into_bytes();
    bytes[100] = 1;
    let mut unsound = Table::from_bytes(bytes.clone());
    assert_eq!(
        unsound.datagram(&mut counters, MonotonicMillis(1), UNIX, &ADDRESS, 1, &PEER, &[]),
        Err(Number(1))
    );
    assert_eq!(
        unsound.ping_sent(&mut counters, MonotonicMillis(1), &PEER, &ADDRESS, 1, 2, &[]),
        Err(Number(1))
    );
    assert_eq!(unsound.sweep(&mut counters, MonotonicMillis(1)), Err(Number(1)));
    assert_eq!(unsound.closest(&[]), Err(Number(1)));
    assert_eq!(unsound.head(&[]), Err(Number(1)));
    assert_eq!(unsound.find(&[]), Err(Number(1)));
    assert_eq!(unsound.state(), Err(Number(1)));
    assert_eq!(unsound.printout(), Err(Number(1)));
    assert_eq!(unsound.printout_in(&mut []), Err(Number(1)));
    assert_eq!(unsound.bytes(), bytes);
}

/// A bucket that the table doesn't keep.
#[test]
fn not_kept() {
    let mut table = Table::new(&OWN, 1).unwrap();
    let own = keccak256(&OWN);
    let near =
        (0..=255u8).map(|byte| [byte; 64]).find(|key| (keccak256(key)[0] ^ own[0]) < 0x80 && *key != OWN);
    let near = near.unwrap();
    let hash = [0; 32];
    let answer = table.ping_sent(&mut Counters::default(), MonotonicMillis(1), &near, &ADDRESS, 1, 2, &hash);
    assert_eq!(answer, Err(Number(12)));
    assert_eq!(table.head(&near), Err(Number(12)));
    assert_eq!(table.find(&near), Err(Number(12)));
}

#[test]
fn fields() {
    let datagram = ping(77);
    let read = Packet::Ping {
        version: 4,
        from: Some(&ADDRESS),
        from_udp: 30303,
        from_tcp: 30304,
        to: &ADDRESS,
        to_udp: 9,
        expiration: 77,
        enr_seq: Some(5),
    };
    assert_eq!(Packet::read(&datagram), Ok(read));
    assert_eq!(Packet::read(&datagram[..97]), Err(Number(8)));
    assert_eq!(Packet::read(&datagram[..120]), Err(Number(9)));
}

/// An unknown `from` is written and read back; both its ports are told.
#[test]
fn unknown_from() {
    let body = write::in_vec(|buf| write::ping(buf, None, 1, 2, &ADDRESS, 3, 4, None)).unwrap();
    assert_eq!(body[..7], [1, 0xce, 4, 0xc3, 0x80, 1, 2]);
    let datagram = datagram(&body);
    let Ok(Packet::Ping { from, from_udp, from_tcp, to, .. }) = Packet::read(&datagram) else { panic!() };
    assert_eq!((from, from_udp, from_tcp, to), (None, 1, 2, &ADDRESS[..]));
}

/// The room to the byte, and what lies behind it.
#[test]
fn rooms() {
    let mut buf = [0xaa; 40];
    assert_eq!(write::enr_request(&mut buf[..3], 200), Err(Number(19)));
    assert_eq!(buf, [0xaa; 40]);
    assert_eq!(write::enr_request(&mut buf[..4], 200), Ok(4));
    assert_eq!(buf[..5], [5, 0xc2, 0x81, 200, 0xaa]);
    assert_eq!(write::enr_request(&mut [], 200), Err(Number(19)));
    assert_eq!(write::join(&mut buf, &SIGNATURE, &[]), Err(Number(20)));
    assert_eq!(write::join(&mut [], &SIGNATURE[1..], &[1]), Err(Number(20)));
    assert_eq!(write::join(&mut buf, &SIGNATURE, &[1]), Err(Number(19)));
    assert_eq!(write::find_node(&mut buf, &OWN[1..], 1), Err(Number(20)));
    assert_eq!(write::ping(&mut buf, Some(&[7]), 1, 2, &ADDRESS, 3, 4, None), Err(Number(20)));
    assert_eq!(write::ping(&mut buf, None, 1, 2, &[], 3, 4, None), Err(Number(20)));
    assert_eq!(write::pong(&mut buf, &ADDRESS, 3, &[0; 31], 4, None), Err(Number(20)));
    assert_eq!(write::enr_response(&mut buf, &[0; 32], &[0xc1]), Err(Number(20)));
    assert_eq!(write::neighbors(&mut buf, &[Node::EMPTY], 1), Err(Number(20)));
    let node = Node { key: PEER, endpoint: Endpoint::new(&[255; 16], 65535, 65535).unwrap() };
    let largest = write::in_vec(|buf| write::neighbors(buf, &[node; 12], u64::MAX)).unwrap();
    assert_eq!(datagram(&largest).len(), 1205);
    assert_eq!(write::in_vec(|buf| write::neighbors(buf, &[node; 13], 1)), Err(Number(20)));
    assert_eq!(Endpoint::new(&[0; 5], 1, 2), None);
}

/// The layout that include/coghammer.h declares.
#[test]
fn layout() {
    use std::mem::{align_of, offset_of, size_of};
    assert_eq!((size_of::<Counters>(), align_of::<Counters>()), (88, 4));
    assert_eq!((size_of::<Endpoint>(), align_of::<Endpoint>()), (22, 2));
    let offsets = [offset_of!(Endpoint, len), offset_of!(Endpoint, address), offset_of!(Endpoint, udp)];
    assert_eq!((offsets, offset_of!(Endpoint, tcp)), ([0, 1, 18], 20));
    assert_eq!((size_of::<Node>(), offset_of!(Node, key), offset_of!(Node, endpoint)), (86, 0, 64));
}
