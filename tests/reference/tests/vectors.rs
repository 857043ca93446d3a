//! Published vectors: Keccak-256, the same sponge as SHA3-256, and EIP-8's packets.

mod common;

use common::{bytes, outcome};
use reference::hex;
use reference::keccak::{keccak256, sha3_256};
use reference::packet::{check_hash, read, Packet};

#[test]
fn keccak_published() {
    let vectors = [
        ("", "c5d2460186f7233c927e7db2dcc703c0e500b653ca82273b7bfad8045d85a470"),
        ("abc", "4e03657aea45a94fc7d47ba826c8d667c0d1e6e33a64a036ec44f58fa12d6c45"),
        (
            "The quick brown fox jumps over the lazy dog",
            "4d741b6f1eb29cb2a9b9911c82f56fa8d73b04959d3d9d222895df6c0b28aa15",
        ),
        (
            "The quick brown fox jumps over the lazy dog.",
            "578951e24efd62a3d63a86f7cd19aaa53c898fe287d2552133220370240b572d",
        ),
    ];
    for (message, digest) in vectors {
        assert_eq!(hex(&keccak256(message.as_bytes())), digest);
    }
    assert_ne!(keccak256(b""), sha3_256(b""));
}

/// SHA3-256 differs in one padding byte; its digests of the bytes 0, 1, 2 .. (modulo 251) at lengths
/// around the block's 136 bytes come from another implementation (Python's hashlib).
#[test]
fn sponge_at_block_edges() {
    let vectors = [
        (1, "5d53469f20fef4f8eab52b88044ede69c77a6a68a60728609fc4a65ff531e7d0"),
        (7, "59b1add388b7d625d2797894a4d88c7554a796a5a3d8ae232bf5f86bd72d5756"),
        (8, "eb4d0f2add0f6d0b26f0c65dbe71fe617cc6b43fb403649e82cc8bab41195f4e"),
        (64, "c8ad478f4e1dd9d47dfc3b985708d92db1f8db48fe9cddd459e63c321f490402"),
        (134, "644e15224f5597351aef5c4bdd22b27ca0c19db2244431534c2a4a0bebfdf39c"),
        (135, "fded8fd9d6551c601eeb3b7c6bc5e5cfd8aad1d015b7e9aaa9c9b9475231d5e2"),
        (136, "cf3ccff92480a29160c2d38317c430e14749bfee1788106957dfe73f8c4930e5"),
        (137, "ce9d7dc90913ee5d92745019479a5352c6d6279bef18ed07dc0a83ee8084daca"),
        (271, "0153fcdb6825d836b10835ccb3999dc1d8b68492f77e7e38afa31f8e244bd7af"),
        (272, "b7ccd55b6c2c3fa144c9e0624059294975a348b02f321abe289701d3012f7794"),
        (273, "4827800416bd25b01f53360454943ef688112eaee40422929a59af596a2c0be7"),
        (408, "a93bae9e07a493dd3375b96da852dd2104e2f864978f7bee93a44db86a4714ca"),
        (1248, "c8a998e4ac7b2499696d00872b8c218e6c6c8f57d2c4ebeb9fd6814e303eba9e"),
        (1280, "bc99e3b2f6297f8b2a30bfb06a870b8184686f73b3051b480b60fdfad98c9553"),
        (2000, "84c38304992b7983e6a5db7db30c8910ad2bc797d619bedbce4f1191a039eaf1"),
    ];
    for (length, digest) in vectors {
        let message: Vec<u8> = (0..length).map(|i| (i % 251) as u8).collect();
        assert_eq!(hex(&sha3_256(&message)), digest, "{length} bytes");
    }
}

const PING_4: &str = concat!(
    "e9614ccfd9fc3e74360018522d30e1419a143407ffcce748de3e22116b7e8dc92ff74788c0b6663a",
    "aa3d67d641936511c8f8d6ad8698b820a7cf9e1be7155e9a241f556658c55428ec0563514365799a",
    "4be2be5a685a80971ddcfa80cb422cdd0101ec04cb847f000001820cfa8215a8d790000000000000",
    "000000000000000000018208ae820d058443b9a3550102"
);
const PING_555: &str = concat!(
    "577be4349c4dd26768081f58de4c6f375a7a22f3f7adda654d1428637412c3d7fe917cadc56d4e5e",
    "7ffae1dbe3efffb9849feb71b262de37977e7c7a44e677295680e9e38ab26bee2fcbae207fba3ff3",
    "d74069a50b902a82c9903ed37cc993c50001f83e82022bd79020010db83c4d001500000000abcdef",
    "12820cfa8215a8d79020010db885a308d313198a2e037073488208ae82823a8443b9a355c5010203",
    "040531b9019afde696e582a78fa8d95ea13ce3297d4afb8ba6433e4154caa5ac6431af1b80ba7602",
    "3fa4090c408f6b4bc3701562c031041d4702971d102c9ab7fa5eed4cd6bab8f7af956f7d565ee191",
    "7084a95398b6a21eac920fe3dd1345ec0a7ef39367ee69ddf092cbfe5b93e5e568ebc491983c09c7",
    "6d922dc3"
);
const PONG: &str = concat!(
    "09b2428d83348d27cdf7064ad9024f526cebc19e4958f0fdad87c15eb598dd61d08423e0bf66b206",
    "9869e1724125f820d851c136684082774f870e614d95a2855d000f05d1648b2d5945470bc187c2d2",
    "216fbe870f43ed0909009882e176a46b0102f846d79020010db885a308d313198a2e037073488208",
    "ae82823aa0fbc914b16819237dcd8801d7e53f69e9719adecb3cc0e790c57e91ca4461c9548443b9",
    "a355c6010203c2040506a0c969a58f6f9095004c0177a6b47f451530cab38966a25cca5cb58f0555",
    "42124e"
);
const FIND_NODE: &str = concat!(
    "c7c44041b9f7c7e41934417ebac9a8e1a4c6298f74553f2fcfdcae6ed6fe53163eb3d2b52e39fe91",
    "831b8a927bf4fc222c3902202027e5e9eb812195f95d20061ef5cd31d502e47ecb61183f74a504fe",
    "04c51e73df81f25c4d506b26db4517490103f84eb840ca634cae0d49acb401d8a4c6b6fe8c55b70d",
    "115bf400769cc1400f3258cd31387574077f301b421bc84df7266c44e9e6d569fc56be0081290476",
    "7bf5ccd1fc7f8443b9a35582999983999999280dc62cc8255c73471e0a61da0c89acdc0e035e260a",
    "dd7fc0c04ad9ebf3919644c91cb247affc82b69bd2ca235c71eab8e49737c937a2c396"
);
const NEIGHBORS: &str = concat!(
    "c679fc8fe0b8b12f06577f2e802d34f6fa257e6137a995f6f4cbfc9ee50ed3710faf6e66f932c4c8",
    "d81d64343f429651328758b47d3dbc02c4042f0fff6946a50f4a49037a72bb550f3a7872363a83e1",
    "b9ee6469856c24eb4ef80b7535bcf99c0004f9015bf90150f84d846321163782115c82115db84031",
    "55e1427f85f10a5c9a7755877748041af1bcd8d474ec065eb33df57a97babf54bfd2103575fa8291",
    "15d224c523596b401065a97f74010610fce76382c0bf32f84984010203040101b840312c55512422",
    "cf9b8a4097e9a6ad79402e87a15ae909a4bfefa22398f03d20951933beea1e4dfa6f968212385e82",
    "9f04c2d314fc2d4e255e0d3bc08792b069dbf8599020010db83c4d001500000000abcdef12820d05",
    "820d05b84038643200b172dcfef857492156971f0e6aa2c538d8b74010f8e140811d53b98c765dd2",
    "d96126051913f44582e8c199ad7c6d6819e9a56483f637feaac9448aacf8599020010db885a308d3",
    "13198a2e037073488203e78203e8b8408dcab8618c3253b558d459da53bd8fa68935a719aff8b811",
    "197101a4b2b47dd2d47295286fc00cc081bb542d760717d1bdd6bec2c37cd72eca367d6dd3b9df73",
    "8443b9a355010203b525a138aa34383fec3d2719a0"
);

/// EIP-8's packets. Two of them have a list where enr-seq now stands and are 10 (A5).
#[test]
fn eip_8() {
    for (text, expected) in [(PING_4, 0), (PING_555, 10), (PONG, 10), (FIND_NODE, 0), (NEIGHBORS, 0)] {
        let datagram = bytes(text);
        assert_eq!(check_hash(&datagram), Ok(()), "{}", &text[..8]);
        assert_eq!(outcome(&read(&datagram)), expected, "{}", &text[..8]);
    }
    let Ok(Packet::Ping { version, from, to, expiration, enr_seq }) = read(&bytes(PING_4)) else {
        panic!("a ping")
    };
    assert_eq!((version, expiration, enr_seq), (4, 1136239445, Some(1)));
    assert_eq!((from.address, from.udp, from.tcp), (Some(vec![127, 0, 0, 1]), 3322, 5544));
    assert_eq!((to.address, to.udp), (bytes("00000000000000000000000000000001"), 2222));
    let Ok(Packet::Neighbors { nodes, expiration }) = read(&bytes(NEIGHBORS)) else { panic!("neighbors") };
    assert_eq!((nodes.len(), expiration), (4, 1136239445));
    assert_eq!(nodes[0].endpoint.address, [99, 33, 22, 55]);
    assert_eq!((nodes[3].endpoint.udp, nodes[3].endpoint.tcp), (999, 1000));
}
