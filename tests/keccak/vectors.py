"""Prints what the program test_keccak must print: vectors.py > crates/test_keccak/stdout"""
from keccak256 import PUBLISHED, check, keccak256


def vectors():
    pattern = bytes((7 * i + 3) % 256 for i in range(1280))
    lengths = [*range(63, 66), *range(134, 139), *range(270, 275), 1279, 1280]
    messages = [message for message, _ in PUBLISHED] + [pattern[:n] for n in lengths]
    return "".join(keccak256(message).hex() + "\n" for message in messages)


if __name__ == "__main__":
    check()
    print(vectors(), end="")
