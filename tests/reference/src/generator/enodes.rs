//! Boot lists: texts of good lines, spelled as they may be, and of lines damaged in one place.

use super::peers::random_port;
use super::random::Random;
use crate::enode::line;
use crate::packet::{Endpoint, Node};

/// A node that can be written: four address bytes, all octets and ports about as often as their edges.
pub fn node(random: &mut Random) -> Node {
    let octet = |random: &mut Random| match random.below(3) {
        0 => *random.pick(&[0, 1, 9, 10, 99, 100, 199, 200, 249, 250, 254, 255]),
        _ => random.number() as u8,
    };
    let address = (0..4).map(|_| octet(random)).collect();
    let udp = random_port(random);
    let tcp = if random.chance(60) { udp } else { random_port(random) };
    Node { endpoint: Endpoint { address, udp, tcp }, key: random.bytes(64) }
}

/// A line without its 0A, its hex in lower, upper or mixed case.
pub fn good_line(random: &mut Random) -> Vec<u8> {
    let text = line(&node(random)).expect("four address bytes");
    let mut text = text.trim_end().as_bytes().to_vec();
    let way = random.below(3);
    for digit in &mut text[8..136] {
        if way == 1 || (way == 2 && random.chance(50)) {
            digit.make_ascii_uppercase();
        }
    }
    text
}

/// A line with one part replaced, which as a rule makes it unfit.
pub fn damaged_line(random: &mut Random) -> Vec<u8> {
    let good = good_line(random);
    let text = String::from_utf8(good.clone()).expect("ASCII");
    let (head, ports) = text.rsplit_once(':').expect("a colon");
    let (head, address) = head.split_once('@').expect("an @");
    let tcp = ports.split('?').next().expect("a port");
    let octets: Vec<&str> = address.split('.').collect();
    let odd = *random
        .pick(&["", "00", "01", "256", "260", "300", "999", "1000", "+1", "-1", "1 ", " 1", "0x1", "a"]);
    let odd_port =
        *random.pick(&["", "00", "080", "65536", "65540", "70000", "99999", "100000", "+1", "1 ", "1a"]);
    let mark = *random.pick(&[",", "..", " .", ":"]);
    let made = match random.below(18) {
        0 => format!("{}@{address}:{ports}", &head[..head.len() - 1]),
        1 => format!("{head}0@{address}:{ports}"),
        2 => format!(
            "{}{}@{address}:{ports}",
            &head[..135],
            random.pick(&["g", "G", "/", ":", "`", "@", " ", "é"])
        ),
        3 => {
            let scheme = random.pick(&["ENODE://", "enode:/", "enr://", "Enode://", "", " enode://"]);
            format!("{scheme}{}", &text[8..])
        }
        4 => format!("{head}{}{address}:{ports}", random.pick(&["", " ", "@@", "."])),
        5 => {
            let mut octets = octets;
            octets[random.below(4)] = odd;
            format!("{head}@{}:{ports}", octets.join("."))
        }
        6 => format!("{head}@{}:{ports}", octets[..3].join(".")),
        7 => format!("{head}@{address}.{}:{ports}", octets[0]),
        8 => format!("{head}@{}:{ports}", address.replacen('.', mark, 1)),
        9 => format!("{head}@{}:{ports}", random.pick(&["[::1]", "[2001:db8::d]", "::1", "localhost", ""])),
        10 => format!("{head}@{address}:{odd_port}"),
        11 => format!("{head}@{address}:{tcp}?discport={tcp}"),
        12 => format!("{head}@{address}:{tcp}?discport={odd_port}"),
        13 => format!(
            "{head}@{address}:{tcp}{}",
            random.pick(&[
                "?",
                "?discport",
                "?DISCPORT=1",
                "&discport=1",
                "?discport=1?discport=2",
                "?discport=1&a=2"
            ])
        ),
        14 => format!("{text}{}", random.pick(&["\r", " ", "\t", "#", "0", "\0"])),
        15 => format!("{head}@{address}"),
        16 => (*random.pick(&["", "\r", " ", "enode://", "# boot"])).to_string(),
        _ => {
            let mut bytes = good;
            for _ in 0..random.between(1, 2) {
                let at = random.below(bytes.len());
                match random.below(3) {
                    0 => bytes[at] = random.number() as u8,
                    1 => drop(bytes.remove(at)),
                    _ => bytes.insert(at, *random.pick(b"0123456789abcdefABCDEF.:?@= ")),
                }
            }
            return bytes;
        }
    };
    made.into_bytes()
}

/// A text of up to `most` lines, of which about one in twelve is damaged; the last may lack its 0A.
pub fn text(random: &mut Random, most: usize) -> Vec<u8> {
    let mut text = Vec::new();
    for _ in 0..random.below(most + 1) {
        text.extend(if random.chance(8) { damaged_line(random) } else { good_line(random) });
        text.push(b'\n');
    }
    if random.chance(40) {
        text.pop();
    }
    text
}
