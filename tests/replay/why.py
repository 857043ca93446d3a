"""Why a node is or isn't in the table at a log's end (C-17), by plain Python: from the replay's answers, and on logs by hand.

`reasons` follows each node through a log's lines and the answers to them, without a table: what a pong did is in its answer, what a sweep did
follows from times, the line's order and the ranges. `EDGES` has logs with what must be told of a key, worked out by hand from the request.
"""

import functools
import os
import sys

HERE = os.path.dirname(os.path.abspath(__file__))
sys.path[:0] = [os.path.join(HERE, "..", "keccak"), os.path.join(HERE, "..", "packets")]
import keccak256  # noqa: E402
import reference as packets  # noqa: E402

DAY_HALF = 43200000


@functools.lru_cache(maxsize=None)
def hashed(key):
    """The Keccak-256 of a key in hex, as a number."""
    return int.from_bytes(keccak256.keccak256(bytes.fromhex(key.decode())), "big")


def lines_of(log):
    """A log's lines: a last one without 0A counts if it has a byte."""
    lines = log.split(b"\n")
    return lines[:-1] if lines[-1] == b"" else lines


class Node:
    """A held node: where and since when, and the lines that matter."""

    def __init__(self, number, now, address, udp):
        self.address, self.udp, self.out, self.proof = address, udp, now, None
        self.stay = self.pinged = number
        self.seat = self.tail = None

    def reason(self):
        return b"waiting\t%d" % self.stay if self.seat is None else b"seated\t%d\t%d" % (self.seat, self.tail)


class Told:
    """A log's nodes, line by line."""

    def __init__(self):
        self.own, self.held, self.lost, self.numbers = None, {}, {}, {}

    def swept(self, number, now):
        for key, node in list(self.held.items()):
            if node.out is not None and now - node.out > 500:
                self.lost[key] = b"ping\t%d\t%d" % (number, node.pinged)
                del self.held[key]
            elif node.seat is None and node.proof is not None and now - node.proof > DAY_HALF:
                self.lost[key] = b"proof\t%d" % number
                del self.held[key]
        # the line's order is that of the stays, which is that of the dictionary
        for key, node in self.held.items():
            if node.seat is None and node.proof is not None:
                bucket = (hashed(self.own) ^ hashed(key)).bit_length()
                seats = [n for k, n in self.held.items() if n.seat is not None and (hashed(self.own) ^ hashed(k)).bit_length() == bucket]
                same = [n for n in seats if len(n.address) == len(node.address) == 8 and n.address[:6] == node.address[:6]]
                if len(seats) < 16 and len(same) < 2:
                    node.seat = node.tail = number

    def line(self, number, line, answer):
        fields, words = line.split(b"\t"), answer.split(b"\t")
        done = words[0] == b"0"
        if words[0] == b"21":
            return
        if fields[0] == b"own":
            self.own = fields[2] if done else None
            return
        now = int(fields[1])
        if fields[0] == b"sweep":
            if done:
                self.swept(number, now)
            return
        key = fields[5] if fields[0] == b"rx" else fields[2]
        self.numbers[key] = int(words[0])
        if not done:
            return
        node = self.held.get(key)
        if fields[0] == b"sent":
            if node is None:
                self.held[key] = Node(number, now, fields[3], fields[4])
            else:
                node.out, node.pinged = now, number
            return
        if node is None:
            return
        if words[1] in (b"seat", b"tail", b"wait"):
            node.out, node.proof = None, now
        if words[1] == b"seat":
            node.seat = number
        # a ping is accepted of anybody; it moves its sender only if that is verified, as that of the packets of types 3 to 6 is
        verified = (node.address, node.udp) == (fields[3], fields[4]) and node.proof is not None and now - node.proof <= DAY_HALF
        if node.seat is not None and (words[1] != b"pong" or verified):
            node.tail = number

    def reason(self, key):
        if key in self.held:
            return self.held[key].reason()
        if key in self.lost:
            return self.lost[key]
        return b"never\t%d" % self.numbers[key] if key in self.numbers else b"unnamed"


def reasons(log, output):
    """What is told of a key, as a function of it; `output` is the log's replay. Fails where that has another order of seats or of the line."""
    told, lines = Told(), lines_of(log)
    answers = output.split(b"\n")
    for number, (line, answer) in enumerate(zip(lines, answers), 1):
        told.line(number, line, answer)
    rows = [row.split(b"\t") for row in answers[len(lines):] if row.startswith((b"seat\t", b"wait\t"))]
    seats = sorted((n.tail, n.stay, key[:16]) for key, n in told.held.items() if n.seat is not None)
    waiting = [(n.stay, key[:16]) for key, n in told.held.items() if n.seat is None]
    for word, expected in (b"seat", [key for _, _, key in seats]), (b"wait", [key for _, key in waiting]):
        # in each bucket by the last line that put it at the tail, or by the line that began the stay
        for distance in {row[1] for row in rows if row[0] == word}:
            printed = [row[3] for row in rows if row[:2] == [word, distance]]
            if [key for key in expected if key in printed] != printed:
                raise ValueError(f"{word.decode()}s at distance {distance.decode()} are printed in another order")
        if sorted(expected) != sorted(row[3] for row in rows if row[0] == word):
            raise ValueError(f"other {word.decode()}s are printed")
    return told.reason


# ---- logs by hand

OWN = b"ee" * 64
OTHERS = [b"%02x" % n * 64 for n in range(1, 0xEE) if (hashed(b"%02x" % n * 64) ^ hashed(OWN)).bit_length() == 256]
X, A, B = OTHERS[:3]
HASH = b"11" * 32


def own(key=OWN, buckets=16):
    return b"own\t%d\t%s" % (buckets, key)


def sent(ms, key=X, address=b"c0000207", udp=30303, digest=HASH):
    return b"sent\t%d\t%s\t%s\t%d\t30303\t%s" % (ms, key, address, udp, digest)


def rx(ms, kind, data, key=X, address=b"c0000207", udp=30303):
    datagram = packets.join(bytes(65), bytes([kind]) + packets.encode(data))[1]
    return b"rx\t%d\t0\t%s\t%d\t%s\t%s" % (ms, address, udp, key, datagram.hex().encode())


def ping(ms, key=X, **more):
    return rx(ms, 1, [4, [bytes(4), 1, 1], [bytes(4), 1, 0], 9], key, **more)


def pong(ms, key=X, **more):
    return rx(ms, 2, [[bytes(4), 1, 0], bytes.fromhex(HASH.decode()), 9], key, **more)


def find(ms, key=X, target=b"07" * 64, **more):
    return rx(ms, 3, [bytes.fromhex(target.decode()), 9], key, **more)


def sweep(ms):
    return b"sweep\t%d" % ms


def met(ms, key, **more):
    return [sent(ms, key, **more), pong(ms, key, **more)]


# X waits, proved at 1,000 by line 7: its range has two seats
PROVED = [own(), *met(1, A, address=b"c0000201"), *met(2, B, address=b"c0000202"), *met(1000, X)]
OLD = 1000 + DAY_HALF
# sixteen seats, X proved behind them in line 35, a ping to the head in line 36
FULL = [own(), *[line for n, key in enumerate(OTHERS[1:17]) for line in met(1, key, address=b"0a00%02x01" % n)], *met(2, X)]

# name, lines, key, what is told
EDGES = [
    ("a stranger's ping", [own(), ping(1)], X, b"never\t0"),
    ("pinged before own", [sent(1), own()], X, b"never\t1"),
    ("signs before own", [ping(1), own()], X, b"never\t1"),
    ("behind a refused own", [own(buckets=17), sent(1), own(), ping(2)], X, b"never\t1"),
    ("before own, then held", [sent(1), own(), sent(1)], X, b"waiting\t3"),
    ("one field too many", [own(), sent(1) + b"\t1"], X, b"unnamed"),
    ("the key of a second own", [own(), own(X)], X, b"unnamed"),
    ("a target, a hash, an address", [own(), *met(1, A), find(2, A, target=X), sent(3, B, digest=X), ping(4, B, address=X)], X, b"unnamed"),
    ("a signer of 63 bytes and one of 65", [own(), ping(1, X[:126]), ping(1, X + b"00")], X, b"unnamed"),
    ("the own key signs", [own(), ping(1, OWN)], OWN, b"never\t7"),
    ("the own key is pinged", [own(), sent(1, OWN)], OWN, b"never\t7"),
    ("the own key does neither", [own(), *met(1, X)], OWN, b"unnamed"),
    ("to the tail, no byte changed", [own(), sent(100), pong(250), find(250)], X, b"seated\t3\t4"),
    ("a ping from another port", [own(), sent(100), pong(250), ping(250, udp=30304)], X, b"seated\t3\t3"),
    ("a ping from where it is", [own(), sent(100), pong(250), ping(260)], X, b"seated\t3\t4"),
    ("a ping at a proof of 43,200,000 ms", [own(), *met(1000, X), ping(OLD)], X, b"seated\t3\t4"),
    ("a ping at a proof of 43,200,001 ms", [own(), *met(1000, X), ping(OLD + 1)], X, b"seated\t3\t3"),
    ("a pong at an old proof", [own(), *met(1000, X), sent(OLD + 9), pong(OLD + 9)], X, b"seated\t3\t5"),
    ("a refused packet", [own(), *met(1000, X), find(999)], X, b"seated\t3\t3"),
    ("the latest ping", [own(), sent(100), pong(150), sent(200), sent(300), sweep(701)], X, b"ping\t6\t4"),
    ("swept at 500 ms", [own(), sent(100), sweep(600)], X, b"waiting\t2"),
    ("refused behind its removal", [own(), sent(100), sweep(601), *[sent(602, key) for key in OTHERS[1:5]], sent(603)], X, b"ping\t3\t2"),
    ("a stranger again", [own(), sent(100), sweep(601), ping(602)], X, b"ping\t3\t2"),
    ("a new stay", [own(), sent(100), sweep(601), sent(601)], X, b"waiting\t4"),
    ("a proof of 43,200,000 ms", [*PROVED, sweep(OLD)], X, b"waiting\t6"),
    ("a proof of 43,200,001 ms", [*PROVED, sweep(OLD + 1)], X, b"proof\t8"),
    ("an old proof, a ping out in time", [*PROVED, sent(OLD), sweep(OLD + 400)], X, b"proof\t9"),
    ("an old proof, a ping at 500 ms", [*PROVED, sent(OLD), sweep(OLD + 500)], X, b"proof\t9"),
    ("an old proof, an overdue ping", [*PROVED, sent(OLD), sweep(OLD + 501)], X, b"ping\t9\t8"),
    ("a new stay behind an old proof", [*PROVED, sweep(OLD + 1), sent(OLD + 2)], X, b"waiting\t9"),
    ("no free seat", FULL, X, b"waiting\t34"),
    ("a free seat at a sweep", [*FULL, sent(3, OTHERS[1], address=b"0a000001"), sweep(504)], X, b"seated\t37\t37"),
    ("heard while it waited, then seated", [*FULL, sent(3, OTHERS[1], address=b"0a000001"), find(4), sweep(504)], X, b"seated\t38\t38"),
    ("a seat with an old proof", [own(), *met(1000, X), sweep(OLD + 1)], X, b"seated\t3\t3"),
    ("a refused sweep", [own(), sent(100), ping(700, A), sweep(699)], X, b"waiting\t2"),
    ("lines that are not readable", [b"", own(), b"x" * 4000, b"#", sent(1)], X, b"waiting\t5"),
    ("no lines", [], X, b"unnamed"),
]

# texts that are no key
NO_KEYS = [b"", b"-", b"0", X[:126], X[:127], X + b"0", X + b"00", b"AB" * 64, b"ab" * 63 + b"aB", b"ab" * 63 + b"ag", b"0x" + X, b" " + X[1:],
           X[:127] + b"\n", X[:127] + b"\xff", b"a" * 5000, b"--help"]
