"""Checksums of a width and a polynomial: a register of ones takes the bits, the highest of each byte first, and is complemented."""


class Checksum:
    def __init__(self, width, polynomial):
        self.ones, self.shift = (1 << width) - 1, width - 8
        self.table = [self.after_byte(byte << self.shift, polynomial) for byte in range(256)]

    def after_byte(self, register, polynomial):
        """The register after eight bits of 0."""
        for _ in range(8):
            register = register << 1 ^ (polynomial | self.ones + 1 if register > self.ones >> 1 else 0)
        return register

    def after(self, register, data):
        """The register after bytes."""
        for byte in data:
            register = register << 8 & self.ones ^ self.table[register >> self.shift ^ byte]
        return register

    def of(self, data):
        """The checksum of bytes."""
        return self.after(self.ones, data) ^ self.ones


CRC24, CRC32 = Checksum(24, 0x328B63), Checksum(32, 0x1EDC6F41)
