"""Writes a flow file as a bench hears it that verifies words: a row with a wrong checksum says that no word came.

    heard.py FLOW HEARD
"""

import csv
import sys


def crc24(number):
    crc = 0xFFFFFF
    for n in range(63, -1, -1):
        crc = crc << 1 & 0xFFFFFF ^ (0x328B63 if (crc >> 23 ^ number >> n) & 1 else 0)
    return crc ^ 0xFFFFFF


with open(sys.argv[1], newline="", encoding="utf-8") as rows, open(sys.argv[2], "w", encoding="utf-8") as heard:
    for slot, word in csv.reader(rows):
        number = int(word, 16)
        heard.write("%s,%016x\n" % (slot, number if crc24(number >> 24 << 24) == number & 0xFFFFFF else 0))
