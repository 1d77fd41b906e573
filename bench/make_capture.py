"""Writes a capture of equal packets: python3 make_capture.py FILE MEGABYTES PACKET_BYTES"""

import struct
import sys


def write_capture(name, megabytes, size):
    """The packets have so many millions of bytes together."""
    packet = bytes((i * 37 + 11) % 256 for i in range(size))
    record = struct.pack("<IIII", 0, 0, size, size) + packet
    with open(name, "wb") as file:
        file.write(struct.pack("<IHHIIII", 0xA1B2C3D4, 2, 4, 0, 0, 262144, 1))
        for _ in range(int(megabytes * 1000000) // size):
            file.write(record)


if __name__ == "__main__":
    write_capture(sys.argv[1], int(sys.argv[2]), int(sys.argv[3]))
