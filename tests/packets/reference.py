"""discv4 packets, read and written by plain Python: Keccak-256, strict RLP, the six packets.

Independent of the library: written from the discv4 wire page, Ethereum's RLP and document 01's section "Packets".
Answers are document 01's numbers.
"""

import os
import sys

sys.path.insert(0, os.path.join(os.path.dirname(os.path.abspath(__file__)), "..", "keccak"))
from keccak256 import keccak256  # noqa: E402

# ---- RLP


def integer(n):
    """The bytes of an integer: big-endian, no leading zeros."""
    return n.to_bytes((n.bit_length() + 7) // 8, "big")


def header(base, n):
    if n < 56:
        return bytes([base + n])
    size = integer(n)
    return bytes([base + 55 + len(size)]) + size


def encode(item):
    """Bytes are a string, an int is an integer, a list is a list."""
    if isinstance(item, int):
        item = integer(item)
    if isinstance(item, bytes):
        if len(item) == 1 and item[0] < 0x80:
            return item
        return header(0x80, len(item)) + item
    payload = b"".join(encode(i) for i in item)
    return header(0xC0, len(payload)) + payload


class NotCanonical(Exception):
    pass


def take(s, at):
    """The item at `at` of s: (is a list, start of its payload, end). NotCanonical where it is not whole or not shortest-form."""
    if at >= len(s):
        raise NotCanonical
    first = s[at]
    if first < 0x80:
        return False, at, at + 1
    is_list = first >= 0xC0
    tag = first - (0xC0 if is_list else 0x80)
    start = at + 1
    size = tag
    if tag > 55:
        digits = s[start : start + tag - 55]
        start += tag - 55
        if len(digits) < tag - 55 or digits[0] == 0:
            raise NotCanonical
        size = int.from_bytes(digits, "big")
        if size < 56:
            raise NotCanonical
    end = start + size
    if end > len(s):
        raise NotCanonical
    if not is_list and size == 1 and s[start] < 0x80:
        raise NotCanonical
    return is_list, start, end


def items(s):
    """The items of a list's payload: (is a list, payload, the whole item)."""
    found, at = [], 0
    while at < len(s):
        is_list, start, end = take(s, at)
        found.append((is_list, s[start:end], s[at:end]))
        at = end
    return found


# ---- reading


class Wrong(Exception):
    pass


class Reader:
    """Collects what is wrong: a 9 anywhere counts more than a 10 anywhere."""

    def __init__(self, found):
        self.found = found
        self.at = 0
        self.wrong = False

    def next(self, kind, optional=False):
        if self.at >= len(self.found):
            if not optional:
                self.wrong = True
            return None
        item = self.found[self.at]
        self.at += 1
        try:
            return kind(item)
        except Wrong:
            self.wrong = True
            return None


def uint(bits):
    def kind(item):
        is_list, s, _ = item
        if is_list or (s and s[0] == 0) or len(s) * 8 > bits:
            raise Wrong
        return int.from_bytes(s, "big")

    return kind


def fixed(n):
    def kind(item):
        is_list, s, _ = item
        if is_list or len(s) != n:
            raise Wrong
        return s

    return kind


def address(item):
    is_list, s, _ = item
    if is_list or len(s) not in (4, 16):
        raise Wrong
    return s


def sender_address(item):
    """C-13: in Ping's `from` an empty address is unknown: None."""
    is_list, s, _ = item
    if is_list or len(s) not in (0, 4, 16):
        raise Wrong
    return s or None


def exactly(*kinds):
    def kind(item):
        is_list, s, _ = item
        if not is_list:
            raise Wrong
        inner = items(s)
        if len(inner) != len(kinds):
            raise Wrong
        return tuple(k(i) for k, i in zip(kinds, inner))

    return kind


port = uint(16)
endpoint = exactly(address, port, port)
sender = exactly(sender_address, port, port)
node = exactly(address, port, port, fixed(64))


def nodes(item):
    is_list, s, _ = item
    if not is_list:
        raise Wrong
    found, wrong = [], False
    for inner in items(s):
        try:
            found.append(node(inner))
        except Wrong:
            wrong = True
    if wrong:
        raise Wrong
    return found


def record(item):
    is_list, _, whole = item
    if not is_list or len(whole) > 300:
        raise Wrong
    return whole


def read_data(kind, data):
    """(0, fields), (9, None) or (10, None) for the data of a packet of this type."""
    try:
        is_list, start, end = take(data, 0)
        if not is_list:
            return 9, None
        r = Reader(items(data[start:end]))
        f = {}
        if kind == 1:
            f["version"] = r.next(uint(64))
            f["from"] = r.next(sender)
            f["to"] = r.next(endpoint)
            f["expiration"] = r.next(uint(64))
            f["enr_seq"] = r.next(uint(64), optional=True)
        elif kind == 2:
            f["to"] = r.next(endpoint)
            f["hash"] = r.next(fixed(32))
            f["expiration"] = r.next(uint(64))
            f["enr_seq"] = r.next(uint(64), optional=True)
        elif kind == 3:
            f["target"] = r.next(fixed(64))
            f["expiration"] = r.next(uint(64))
        elif kind == 4:
            f["nodes"] = r.next(nodes)
            f["expiration"] = r.next(uint(64))
        elif kind == 5:
            f["expiration"] = r.next(uint(64))
        elif kind == 6:
            f["hash"] = r.next(fixed(32))
            f["record"] = r.next(record)
    except NotCanonical:
        return 9, None
    return (10, None) if r.wrong else (0, f)


def read(datagram, unix):
    """(number, type, fields) of a whole datagram."""
    if len(datagram) < 98 or len(datagram) > 1280:
        return 3, None, None
    if keccak256(datagram[32:]) != datagram[:32]:
        return 4, None, None
    kind = datagram[97]
    if not 1 <= kind <= 6:
        return 8, None, None
    number, f = read_data(kind, datagram[98:])
    if number:
        return number, None, None
    if kind != 6 and f["expiration"] < unix:
        return 11, None, None
    return 0, kind, f


# ---- writing: (number, bytes)

UNWRITABLE = (20, None)


def _enr(enr_seq):
    return [] if enr_seq is None else [enr_seq]


def _written(kind, fields, ok):
    return (0, bytes([kind]) + encode(fields)) if ok else UNWRITABLE


def write_ping(sender, sender_udp, sender_tcp, to, to_udp, expiration, enr_seq):
    """An empty `sender` is unknown."""
    ok = len(sender) in (0, 4, 16) and len(to) in (4, 16)
    return _written(1, [4, [sender, sender_udp, sender_tcp], [to, to_udp, 0], expiration] + _enr(enr_seq), ok)


def write_pong(to, to_udp, ping_hash, expiration, enr_seq):
    ok = len(to) in (4, 16) and len(ping_hash) == 32
    return _written(2, [[to, to_udp, 0], ping_hash, expiration] + _enr(enr_seq), ok)


def write_find_node(target, expiration):
    return _written(3, [target, expiration], len(target) == 64)


def write_neighbors(count, listed, expiration):
    """`listed` are (address length, 16 bytes, UDP port, TCP port, key); the first `count` are meant."""
    if count > 12 or any(n[0] not in (4, 16) for n in listed[:count]):
        return UNWRITABLE
    return _written(4, [[[n[1][: n[0]], n[2], n[3], n[4]] for n in listed[:count]], expiration], True)


def write_enr_request(expiration):
    return _written(5, [expiration], True)


def write_enr_response(request_hash, enr):
    ok = len(request_hash) == 32 and len(enr) <= 300
    try:
        is_list, _, end = take(enr, 0)
        ok = ok and is_list and end == len(enr)
    except NotCanonical:
        ok = False
    if not ok:
        return UNWRITABLE
    payload = encode(request_hash) + enr
    return 0, b"\x06" + header(0xC0, len(payload)) + payload


def join(signature, body):
    if len(signature) != 65 or not 1 <= len(body) <= 1183:
        return UNWRITABLE
    return 0, keccak256(signature + body) + signature + body


def into(room, answer):
    """The answer of writing into a buffer, and the buffer after it."""
    number, written = answer
    if number:
        return number, room
    if len(written) > len(room):
        return 19, room
    return 0, written + room[len(written) :]
