//! A boot list read and written, over the C boundary and in plain Rust (tests/reference), after a check that both
//! agree on it. They take turns on the same text, and the best turn of each counts.

use std::hint::black_box;
use std::time::Instant;

use coghammer::{read_enodes, write_enodes, End, Endpoint, Node};
use reference::enode;
use reference::generator::enodes::good_line;
use reference::generator::random::Random;
use reference::packet;

const LINES: usize = 1000;
const TURNS: usize = 400;

/// The better of `best` and the time that a call takes, in microseconds.
fn timed<T>(best: &mut f64, call: impl FnOnce() -> T) {
    let start = Instant::now();
    black_box(call());
    *best = best.min(start.elapsed().as_secs_f64() * 1e6);
}

fn row(name: &str, time: f64, plain: f64) {
    println!(
        "  {name:<16} {time:8.1} us  {:6.1} ns a line  {:.2} x plain",
        time * 1e3 / LINES as f64,
        time / plain
    );
}

fn main() {
    let mut random = Random::new(1);
    let text: Vec<u8> = (0..LINES).flat_map(|_| [good_line(&mut random), b"\n".to_vec()].concat()).collect();
    let mut list = vec![Node::EMPTY; LINES];
    assert_eq!(read_enodes(&mut list, &text), (LINES, End::Complete));
    let (nodes, end) = enode::read(LINES, &text);
    assert_eq!(end, enode::End::Complete);
    let same = |ours: &Node, plain: &packet::Node| {
        let packet::Endpoint { address, udp, tcp } = &plain.endpoint;
        ours.key[..] == plain.key && Endpoint::new(address, *udp, *tcp) == Some(ours.endpoint)
    };
    assert!(list.iter().zip(&nodes).all(|(ours, plain)| same(ours, plain)));
    let (mut ours, mut plain) = (vec![0; text.len()], vec![0; text.len()]);
    assert_eq!(write_enodes(&mut ours, &list), enode::write(&nodes, &mut plain));
    assert_eq!(ours, plain);
    println!("{LINES} lines of {} bytes agree", text.len());

    let mut best = [f64::MAX; 4];
    for _ in 0..TURNS {
        timed(&mut best[0], || read_enodes(&mut list, black_box(&text)));
        timed(&mut best[1], || enode::read(LINES, black_box(&text)));
        timed(&mut best[2], || write_enodes(&mut ours, black_box(&list)));
        timed(&mut best[3], || enode::write(black_box(&nodes), &mut plain));
    }
    println!("reading (budget: 3.00)");
    row("Rattle, proved", best[0], best[1]);
    row("plain Rust", best[1], best[1]);
    println!("writing");
    row("Rattle, proved", best[2], best[3]);
    row("plain Rust", best[3], best[3]);
}
