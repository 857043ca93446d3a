"""Cases for the program test_packets, from a seed, with the lines that it must print.

    cases.py SEED COUNT CASES EXPECTED     writes the two files
    cases.py --stored DIR                  writes the bounded set that is kept with the program: DIR/stdin and DIR/stdout

The expected lines come from reference.py alone. The case format is described in crates/test_packets/src/main.rt.
"""

import os
import random
import sys

import reference as ref

READ, PING, PONG, FIND_NODE, NEIGHBORS, ENR_REQUEST, ENR_RESPONSE, JOIN = range(8)
EDGES = [0, 1, 127, 128, 255, 256, 65535, 65536, 2**32, 2**56 - 1, 2**56, 2**63, 2**64 - 1]


def case(kind, room=0, expiration=0, enr=None, udp=0, tcp=0, udp2=0, first=b"", second=b"", nodes=None):
    size = len(first) if nodes is None else nodes[0]
    head = bytes([kind]) + room.to_bytes(2, "big") + expiration.to_bytes(8, "big")
    head += bytes([enr is not None]) + (enr or 0).to_bytes(8, "big")
    for n in (udp, tcp, udp2, size, len(second)):
        head += n.to_bytes(2, "big")
    if nodes is None:
        return head + first + second
    return head + b"".join(
        bytes([n[0]]) + n[1] + n[2].to_bytes(2, "big") + n[3].to_bytes(2, "big") + n[4] for n in nodes[1]
    )


# ---- values


class Values:
    def __init__(self, seed):
        self.r = random.Random(seed)

    def chance(self, p):
        return self.r.random() < p

    def bytes(self, n):
        return self.r.randbytes(n)

    def number(self, bits=64):
        n = self.r.choice([self.r.choice(EDGES), self.r.getrandbits(self.r.randint(1, 64))])
        return n % 2**bits

    def port(self):
        return self.r.choice([0, 1, 127, 128, 255, 256, 30303, 65535, self.r.getrandbits(16)])

    def sized(self, right, wrong=0.1):
        """Bytes of one of the right sizes, now and then of another."""
        n = self.r.choice(right)
        if self.chance(wrong):
            n = max(0, self.r.choice([n - 1, n + 1, 0, 1, n // 2]))
        return self.bytes(n)

    def enr(self):
        return None if self.chance(0.5) else self.number()

    def payload(self, n):
        """n bytes of canonical items."""
        out = b""
        while len(out) < n:
            left = n - len(out)
            if left == 1 or self.chance(0.3):
                out += bytes([self.r.randrange(0x80)])
                continue
            size = self.r.randint(0, min(left - 1, 55))
            if size == 1:
                out += bytes([0x81, self.r.randrange(0x80, 0x100)])
            else:
                out += bytes([self.r.choice([0x80, 0xC0]) + size]) + bytes(self.r.randrange(0x80) for _ in range(size))
        return out

    def record(self):
        n = self.r.choice([0, 1, 55, 56, 200, 255, 256, 296, 297, 298, self.r.randrange(310)])
        p = self.payload(n) if self.chance(0.7) else self.bytes(n)
        good = ref.header(0xC0, n) + p
        return self.r.choice(
            [good] * 6
            + [good + b"\x00", good[:-1], ref.header(0x80, n) + p, bytes([0xF8, n % 256]) + p, bytes([0xF9, n // 256, n % 256]) + p, b""]
        )

    def node(self):
        n = self.r.choice([4, 16])
        if self.chance(0.02):
            n = self.r.choice([0, 3, 5, 15, 17, 32, 255])
        return n, self.bytes(16), self.port(), self.port(), self.bytes(64)


# ---- writing


def writing(v, kind):
    """(arguments of the case, the reference's answer)"""
    x, enr, udp, tcp, udp2 = v.number(), v.enr(), v.port(), v.port(), v.port()
    if kind == PING:
        a, b = v.sized([0, 4, 16]), v.sized([4, 16])
        return dict(expiration=x, enr=enr, udp=udp, tcp=tcp, udp2=udp2, first=a, second=b), ref.write_ping(a, udp, tcp, b, udp2, x, enr)
    if kind == PONG:
        a, h = v.sized([4, 16]), v.sized([32])
        return dict(expiration=x, enr=enr, udp=udp, first=a, second=h), ref.write_pong(a, udp, h, x, enr)
    if kind == FIND_NODE:
        t = v.sized([64])
        return dict(expiration=x, first=t), ref.write_find_node(t, x)
    if kind == NEIGHBORS:
        count = v.r.choice(list(range(17)) + [12, 12, 13, 17, 255, 65535])
        listed = [v.node() for _ in range(16)]
        return dict(expiration=x, nodes=(count, listed)), ref.write_neighbors(count, listed, x)
    if kind == ENR_REQUEST:
        return dict(expiration=x), ref.write_enr_request(x)
    if kind == ENR_RESPONSE:
        h, r = v.sized([32]), v.record()
        return dict(first=h, second=r), ref.write_enr_response(h, r)
    s = v.sized([65])
    b = v.bytes(v.r.choice([0, 1, 2, 1182, 1183, 1184, v.r.randrange(1184)]))
    return dict(first=s, second=b), ref.join(s, b)


def write_case(v, kind):
    arguments, answer = writing(v, kind)
    need = len(answer[1]) if answer[1] is not None else v.r.randrange(1300)
    room = v.r.choice([need, need, need - 1, need + 1, need + v.r.randrange(20), 0, v.r.randrange(need + 1)])
    room = max(0, min(1400, room))
    number, after = ref.into(b"\xee" * room, answer)
    return case(kind, room, **arguments), f"{number}\t{after.hex()}"


# ---- reading: items that may be encoded wrongly


class Raw:
    """An item's bytes as they are."""

    def __init__(self, s):
        self.s = s


def encoded(item):
    if isinstance(item, Raw):
        return item.s
    if isinstance(item, list):
        p = b"".join(encoded(i) for i in item)
        return ref.header(0xC0, len(p)) + p
    return ref.encode(item)


def fields(v, kind):
    def endpoint(empty=0.03):
        return [b"" if v.chance(empty) else v.bytes(v.r.choice([4, 16])), v.port(), v.port()]

    def enr():
        e = v.enr()
        return [] if e is None else [e]

    extra = [] if v.chance(0.7) else [v.r.choice([v.number(), v.bytes(3), [1, [2]], Raw(b"\xc2\x81\x00")]) for _ in range(v.r.randint(1, 3))]
    x = v.number()
    if kind == PING:
        e = enr()
        return [v.r.choice([4, 4, 5, v.number()]), endpoint(0.3), endpoint(), x] + e + (extra if e else [])
    if kind == PONG:
        e = enr()
        return [endpoint(), v.bytes(32), x] + e + (extra if e else [])
    if kind == FIND_NODE:
        return [v.bytes(64), x] + extra
    if kind == NEIGHBORS:
        return [[endpoint() + [v.bytes(64)] for _ in range(v.r.choice([0, 1, 2, 3, 11, 12, 12, 13]))], x] + extra
    if kind == ENR_REQUEST:
        return [x] + extra
    n = v.r.choice([0, 1, 55, 56, 255, 256, 296, 297, 298, v.r.randrange(300)])
    return [v.bytes(32), Raw(ref.header(0xC0, n) + (v.payload(n) if v.chance(0.5) else v.bytes(n)))] + extra


def damaged(v, item):
    """An item that differs from this one in one place."""
    if isinstance(item, list) and item and v.chance(0.75):
        i = v.r.randrange(len(item))
        way = v.r.randrange(8)
        if way < 5:
            return item[:i] + [damaged(v, item[i])] + item[i + 1 :]
        if way == 5:
            return item[:i] + item[i + 1 :]
        if way == 6:
            return item[:i] + [v.r.choice([0, 5, b"abc", [], [1, 2]])] + item[i:]
        return item[:i] + [v.r.choice([0, b"", v.bytes(4), [], [item[i]], 2**16, 2**64])] + item[i + 1 :]
    good = encoded(item)
    try:
        _, start, end = ref.take(good, 0)
    except ref.NotCanonical:
        return item
    p, base = good[start:end], 0xC0 if good[0] >= 0xC0 else 0x80
    return Raw(
        v.r.choice(
            [
                # headers that are not shortest-form
                bytes([base + 55 + 1, len(p) % 256]) + p,
                bytes([base + 55 + 2, len(p) // 256, len(p) % 256]) + p,
                bytes([0x81]) + p[:1],
                # a leading zero, one byte more or fewer
                encoded(b"\x00" + p),
                ref.header(base, len(p) + 1) + p + b"\x01",
                ref.header(base, max(0, len(p) - 1)) + p[:-1],
                # sizes that do not hold
                ref.header(base, len(p) + 1) + p,
                ref.header(base, len(p) + 60) + p,
                # another kind
                ref.header(0x140 - base, len(p)) + p,
                b"",
                b"\x00",
                b"\x80",
                b"\xc0",
                encoded(2**16),
                encoded(2**64),
                encoded(2**64 - 1),
                encoded(v.bytes(len(p) + v.r.choice([1, 2, 9]))),
            ]
        )
    )


def datagram(v):
    kind = v.r.randint(1, 6)
    items = fields(v, kind)
    if v.chance(0.55):
        items = damaged(v, items)
        if v.chance(0.2):
            items = damaged(v, items)
    data = encoded(items)
    if v.chance(0.15):
        data += v.bytes(v.r.randrange(1, 20))
    if v.chance(0.05) and data:
        i = v.r.randrange(len(data))
        data = data[:i] + bytes([data[i] ^ (1 << v.r.randrange(8))]) + data[i + 1 :]
    if v.chance(0.02):
        data = data[: v.r.randrange(len(data) + 1)]
    if v.chance(0.03):
        kind = v.r.choice([0, 7, 8, 128, 255])
    rest = v.bytes(65) + bytes([kind]) + data
    d = ref.keccak256(rest) + rest
    if v.chance(0.02):
        d = d[: v.r.choice([0, 1, 31, 32, 96, 97])]
    elif v.chance(0.02):
        i = v.r.randrange(len(d))
        d = d[:i] + bytes([d[i] ^ 1]) + d[i + 1 :]
    return d


def read_line(d, unix):
    """The line for a datagram: the number, and after 0 the type and the fields."""
    number, kind, f = ref.read(d, unix)
    if number:
        return str(number)
    out = ["0", str(kind)]
    if kind == PING:
        a, b = f["from"], f["to"]
        out += [str(f["version"]), "unknown" if a[0] is None else a[0].hex(), str(a[1]), str(a[2]), b[0].hex(), str(b[1])]
    if kind == PONG:
        out += [f["to"][0].hex(), str(f["to"][1]), f["hash"].hex()]
    if kind == FIND_NODE:
        out += [f["target"].hex()]
    if kind == NEIGHBORS:
        out += [str(len(f["nodes"]))]
        for n in f["nodes"]:
            out += [n[0].hex(), str(n[1]), str(n[2]), n[3].hex()]
    if kind == ENR_RESPONSE:
        out += [f["hash"].hex(), f["record"].hex()]
    if kind != ENR_RESPONSE:
        out += [str(f["expiration"])]
    if kind in (PING, PONG):
        out += ["-" if f["enr_seq"] is None else str(f["enr_seq"])]
    return "\t".join(out)


def read_case(v):
    d = datagram(v)
    unix = 0
    number, kind, f = ref.read(d, 0)
    if number == 0 and kind != ENR_RESPONSE and v.chance(0.3):
        unix = min(2**64 - 1, max(0, f["expiration"] + v.r.choice([-1, 0, 1])))
    return case(READ, expiration=unix, first=d), read_line(d, unix)


def published():
    here = os.path.dirname(os.path.abspath(__file__))
    for line in open(os.path.join(here, "eip8.txt")):
        if not line.startswith("#"):
            d = bytes.fromhex(line.strip())
            yield case(READ, first=d), read_line(d, 0)


def unknown():
    """C-13: an empty address in Ping's `from`, around it, and in every other place."""
    four, ports = bytes([10, 0, 0, 7]), [30303, 30304]
    froms = [[b""] + ports, [[]] + ports, [Raw(b"\x00")] + ports, [b"\x80"] + ports, [bytes(5)] + ports, [b"", 30303], [], [Raw(b"\x81\x00")] + ports]
    froms += [[b""] + ports + [7], [b""] + ports + [Raw(b"\x82\x07")], [b"", 65536, 1], [b"", b"", b""], [four] + ports, [bytes(16)] + ports, b""]
    for a in froms:
        yield 1, [4, a, [four, 1, 0], 9]
    yield 1, [4, [b""] + ports, [b""] + ports, 9, 5]
    yield 1, [4, [four] + ports, [b""] + ports, 9]
    yield 2, [[b""] + ports, bytes(32), 9]
    yield 4, [[[b""] + ports + [bytes(64)]], 9]


def unknown_cases():
    for kind, items in unknown():
        rest = bytes(65) + bytes([kind]) + encoded(items)
        d = ref.keccak256(rest) + rest
        yield case(READ, first=d), read_line(d, 0)
    for a in b"", bytes([10, 0, 0, 7]), bytes(16), bytes(1):
        for b in b"", bytes([10, 0, 0, 8]):
            number, after = ref.into(b"\xee" * 80, ref.write_ping(a, 30303, 30304, b, 1, 9, None))
            yield case(PING, 80, expiration=9, udp=30303, tcp=30304, udp2=1, first=a, second=b), f"{number}\t{after.hex()}"


def generated(seed, count, kinds):
    v = Values(seed)
    for i in range(count):
        kind = kinds[i % len(kinds)]
        yield read_case(v) if kind == READ else write_case(v, kind)


def save(pairs, cases, expected):
    with open(cases, "w") as c, open(expected, "w") as e:
        for s, line in pairs:
            c.write(s.hex() + "\n")
            e.write(line + "\n")


ALL = [READ, PING, READ, PONG, READ, FIND_NODE, READ, NEIGHBORS, READ, ENR_REQUEST, READ, ENR_RESPONSE, READ, JOIN]

if __name__ == "__main__":
    if sys.argv[1] == "--stored":
        save(list(published()) + list(unknown_cases()) + list(generated(1, 210, ALL)), os.path.join(sys.argv[2], "stdin"), os.path.join(sys.argv[2], "stdout"))
    else:
        save(generated(int(sys.argv[1]), int(sys.argv[2]), ALL), sys.argv[3], sys.argv[4])
