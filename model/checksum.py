"""Checksums, and hexadecimal digits. DEFINITIONS, "Words"."""

from functools import lru_cache
from typing import Iterable, Sequence

CRC24, CRC32 = (24, 0x328B63), (32, 0x1EDC6F41)


def step(width: int, polynomial: int, register: int, bit: int) -> int:
    """The register is shifted left by one, and where its highest bit and the message bit differ, the polynomial is
    xored in."""
    shifted = register << 1 & (1 << width) - 1
    return shifted ^ polynomial if register >> width - 1 != bit else shifted


def checksum(width: int, polynomial: int, message: Iterable[int]) -> int:
    """Of a list of bits: a register of ones takes one bit at a time; the checksum is the register's complement."""
    ones = (1 << width) - 1
    register = ones
    for bit in message:
        register = step(width, polynomial, register, bit)
    return register ^ ones


@lru_cache
def byte_steps(width: int, polynomial: int) -> list[int]:
    """For each byte what eight steps with zeros make of a register that has the byte as its highest bits and else
    zeros."""
    table = []
    for byte in range(256):
        register = byte << width - 8
        for _ in range(8):
            register = step(width, polynomial, register, 0)
        table.append(register)
    return table


def checksum_of_words(width: int, polynomial: int, numbers: Sequence[int]) -> int:
    """The checksum of the 64 bits of each number, the highest first. Eight steps at once, by a table, since a step is
    linear."""
    table, ones = byte_steps(width, polynomial), (1 << width) - 1
    register = ones
    for byte in b"".join(number.to_bytes(8, "big") for number in numbers):
        register = register << 8 & ones ^ table[register >> width - 8 ^ byte]
    return register ^ ones


def crc24(numbers: Sequence[int]) -> int:
    """CRC24 has the polynomial 328B63."""
    return checksum_of_words(*CRC24, numbers)


def crc32(numbers: Sequence[int]) -> int:
    """CRC32 has the polynomial 1EDC6F41."""
    return checksum_of_words(*CRC32, numbers)


def hex_digits(number: int, count: int) -> str:
    """The last `count` hexadecimal digits of a number, in upper case."""
    return format(number, "0%dX" % count)
