"""Captures of made packets: packet number k of a capture, counted from 1, has the bytes 37k, 37k+11, 37k+22, .. modulo 256.

    python3 captures.py FILE SIZES..      where a size is LENGTH, or COUNTxLENGTH for equal packets
"""

import struct
import sys


def lengths(sizes):
    found = []
    for size in sizes:
        count, times, length = size.partition("x")
        found += [int(length)] * int(count) if times else [int(size)]
    return found


def packet(number, length):
    turn = bytes((37 * number + 11 * i) % 256 for i in range(256))
    return (turn * (length // 256 + 1))[:length]


def capture(sizes):
    parts = [struct.pack("<IHHIIII", 0xA1B2C3D4, 2, 4, 0, 0, 262144, 1)]
    for number, length in enumerate(lengths(sizes), 1):
        parts.append(struct.pack("<IIII", 0, 0, length, length) + packet(number, length))
    return b"".join(parts)


def packets_of(capture):
    """The packets of a capture that the program wrote."""
    with open(capture, "rb") as file:
        data = file.read()
    found, at = [], 24
    while at < len(data):
        length = struct.unpack_from("<I", data, at + 8)[0]
        found.append(data[at + 16:at + 16 + length])
        at += 16 + length
    return found


def main():
    with open(sys.argv[1], "wb") as file:
        file.write(capture(sys.argv[2:]))


if __name__ == "__main__":
    main()
