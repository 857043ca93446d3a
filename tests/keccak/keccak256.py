"""Keccak-256 written from the Keccak team's publication, apart from the Rattle code and its proofs.

It makes the round constants and the rotation offsets by the published rules. Run as a program it checks itself: with SHA3's first padding
byte against hashlib's SHA3-256, with Keccak's own against published hashes, and both with blocks taken as lanes and byte by byte."""
import hashlib
import random

RATE = 136
MASK = 2**64 - 1


def rotated(lane, n):
    return (lane << n % 64 | lane >> (64 - n % 64)) & MASK


def permuted(a):
    """Keccak-f[1600] on a state a[x][y]."""
    lfsr = 1
    for _ in range(24):
        # theta
        c = [a[x][0] ^ a[x][1] ^ a[x][2] ^ a[x][3] ^ a[x][4] for x in range(5)]
        d = [c[(x - 1) % 5] ^ rotated(c[(x + 1) % 5], 1) for x in range(5)]
        a = [[a[x][y] ^ d[x] for y in range(5)] for x in range(5)]
        # rho and pi
        b = [[0] * 5 for _ in range(5)]
        b[0][0] = a[0][0]
        x, y = 1, 0
        for t in range(24):
            to_x, to_y = y, (2 * x + 3 * y) % 5
            b[to_x][to_y] = rotated(a[x][y], (t + 1) * (t + 2) // 2)
            x, y = to_x, to_y
        # chi
        a = [[b[x][y] ^ (~b[(x + 1) % 5][y] & MASK & b[(x + 2) % 5][y]) for y in range(5)] for x in range(5)]
        # iota
        for j in range(7):
            if lfsr & 1:
                a[0][0] ^= 1 << (1 << j) - 1
            lfsr <<= 1
            if lfsr & 0x100:
                lfsr ^= 0x171
    return a


def add_lanes(a, block):
    """A block into the state as its 17 lanes."""
    for i in range(RATE // 8):
        a[i % 5][i // 5] ^= int.from_bytes(block[8 * i : 8 * i + 8], "little")


def add_bytes(a, block):
    """A block into the state byte by byte: byte i into lane i // 8, there at byte i % 8, lowest first."""
    for i in range(RATE):
        a[i // 8 % 5][i // 8 // 5] ^= block[i] << 8 * (i % 8)


def sponge(message, first, add=add_lanes):
    """The first 32 bytes of the sponge with rate 136; `first` is the first padding byte, `add` takes a block into the state."""
    padded = bytearray(message) + bytes([first]) + bytes(-(len(message) + 1) % RATE)
    padded[-1] |= 0x80
    a = [[0] * 5 for _ in range(5)]
    for k in range(0, len(padded), RATE):
        add(a, padded[k : k + RATE])
        a = permuted(a)
    return b"".join(a[i][0].to_bytes(8, "little") for i in range(4))


def keccak256(message):
    return sponge(message, 0x01)


def keccak256_bytewise(message):
    return sponge(message, 0x01, add_bytes)


# The base point of secp256k1 is the public key of the private key 1, whose Ethereum address is the hash's last 20 bytes.
KEY = bytes.fromhex(
    "79be667ef9dcbbac55a06295ce870b07029bfcdb2dce28d959f2815b16f81798"
    "483ada7726a3c4655da4fbfc0e1108a8fd17b448a68554199c47d08ffb10d4b8"
)

PUBLISHED = [
    (b"", "c5d2460186f7233c927e7db2dcc703c0e500b653ca82273b7bfad8045d85a470"),
    (b"abc", "4e03657aea45a94fc7d47ba826c8d667c0d1e6e33a64a036ec44f58fa12d6c45"),
    (b"The quick brown fox jumps over the lazy dog", "4d741b6f1eb29cb2a9b9911c82f56fa8d73b04959d3d9d222895df6c0b28aa15"),
    (bytes([0xA3]) * 200, "3a57666b048777f2c953dc4456f45a2588e1cb6f2da760122d530ac2ce607d4a"),
    (KEY, "7e5f4552091a69125d5dfcb7b8c2659029395bdf"),
]


def check():
    source = random.Random(1)
    for n in list(range(300)) + [1000, 1280]:
        message = source.randbytes(n)
        assert sponge(message, 0x06) == hashlib.sha3_256(message).digest(), n
        assert sponge(message, 0x06, add_bytes) == hashlib.sha3_256(message).digest(), n
        assert keccak256_bytewise(message) == keccak256(message), n
    for message, end in PUBLISHED:
        assert keccak256(message).hex().endswith(end), message


if __name__ == "__main__":
    check()
    print("SHA3-256 agrees with hashlib on 302 messages, by lanes and by bytes, Keccak-256 with %d published hashes" % len(PUBLISHED))
