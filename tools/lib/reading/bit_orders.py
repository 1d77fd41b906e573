"""Orders of bits in words: how the bits of a lane stand in the words of a parallel interface, and how they get into order.

Bits are bytes of the characters 0 and 1. An order is a tuple of places: bit n of a word on the lane is the bit `places[n]` of the word
as it stands, from its highest on.
"""

COMPLEMENT = bytes.maketrans(b"01", b"10")


def in_order(width):
    return tuple(range(width))


def bits_reversed(places):
    return places[::-1]


def bytes_swapped(places):
    """The bytes in the other order, of a width that is a multiple of 8."""
    return tuple(place for at in range(len(places) - 8, -1, -8) for place in places[at:at + 8])


def undone(places):
    """The order that undoes one."""
    found = [0] * len(places)
    for place, source in enumerate(places):
        found[source] = place
    return tuple(found)


def reordered(bits, places):
    """Bits of whole words, each word in another order."""
    width, found = len(places), bytearray(len(bits))
    for place, source in enumerate(places):
        found[place::width] = bits[source::width]
    return found
