"""Where the Sync words of a lane stand, in whatever order its bits are."""

from collections import Counter, namedtuple

from reading.bit_orders import COMPLEMENT, bits_reversed, bytes_swapped, in_order, reordered
from reading.lane_bits import bits_of
from reading.lane_words import as_text, legal_headers
from reading.metaframes import SYNC
from reading.plans import CODE

REVERSED_WITHIN, SWAPPED_WITHIN = (8, 16, 20, 32, 40, 64, 66, 67, 80), (16, 32, 64)
LEAST_METAFRAME, MOST_METAFRAME = 5, 8192
LONGEST = CODE * MOST_METAFRAME // 8  # bytes of the longest metaframe
SHORT = 2 * LONGEST + 2 * CODE  # bytes in which a Sync word is looked for in every order
LEAST_FRAMES = 5  # metaframes of a lane that are looked at if it has so many
ROUND = 16  # the Sync word has a period of so many bits, in every order within it
PAYLOAD = 64

# How the bits of a lane file are in order: what is said of it, the places of bits in a word (of `bit_orders`), and the options of
# tools/lanes that mend it.
Order = namedtuple("Order", "said places options")
# How the payload of each code is in order, in the same way.
Payload = namedtuple("Payload", "said places options")
# Where Sync words of a lane are: the order, the bits in that order as a text, the order of payloads, whether codes are complemented
# (or header bits exchanged), the bit of the first Sync word's code, the metaframe or None, and (fits, tried) of Sync words and headers.
Found = namedtuple("Found", "order bits payload is_inverted first metaframe syncs headers")


def orders():
    """The orders of bits in the order in which they are tried."""
    yield Order("bits in order", in_order(1), "")
    for width in REVERSED_WITHIN:
        yield Order("bits reversed within %d" % width, bits_reversed(in_order(width)), "--form raw:%d --lowest-first" % width)
    for width in SWAPPED_WITHIN:
        yield Order("bytes swapped within %d" % width, bytes_swapped(in_order(width)), "--form raw:%d --bytes-swapped" % width)


PAYLOADS = (Payload("payload in order", in_order(PAYLOAD), ""),
            Payload("payload reversed", bits_reversed(in_order(PAYLOAD)), "--form hex67 --payload-reversed"),
            Payload("payload bytes swapped", bytes_swapped(in_order(PAYLOAD)), "--form hex67 --payload-bytes-swapped"))
ORDERS = tuple(orders())


def patterns():
    """The 16 bits that a Sync word repeats, by the payload's order, inverted ones among them."""
    sync = format(SYNC, "064b").encode()
    for payload in PAYLOADS:
        text = bytes(reordered(sync, payload.places))
        for bits in (text, text.translate(COMPLEMENT)):
            yield bits[:ROUND].decode(), payload


PATTERNS = dict(patterns())


def in_one_order(bits, order):
    """A text of bits in an order."""
    if len(order.places) == 1:
        return bits
    whole = len(bits) - len(bits) % len(order.places)
    return reordered(bits[:whole].encode(), order.places).decode()


def sync_payloads(bits):
    """By the order of payloads the bits at which the payloads of Sync words begin."""
    number, found = int(bits or "0", 2), {payload: [] for payload in PAYLOADS}
    # Bit q is 1 if the bits q and q + 16 differ.
    differing = as_text(number ^ number << ROUND, len(bits))[:-ROUND]
    for first, last in runs_of_zeros(differing, PAYLOAD - ROUND):
        for at in range(first, min(last - (PAYLOAD - ROUND), first + ROUND) + 1):
            payload = PATTERNS.get(bits[at:at + ROUND])
            if payload and at >= 3:
                found[payload].append(at)
    return found


def runs_of_zeros(text, least):
    """The first and the last + 1 of each run of at least so many zeros."""
    at = text.find("0" * least)
    while at >= 0:
        end = text.find("1", at)
        end = len(text) if end < 0 else end
        yield at, end
        at = text.find("0" * least, end)


def metaframe_of(places, wanted):
    """The metaframe by the distances of Sync words: the one that is wanted if it is among the most frequent, or the least of these."""
    distances = Counter()
    for begin, end in zip(places, places[1:]):
        length, rest = divmod(end - begin, CODE)
        if rest == 0 and LEAST_METAFRAME <= length <= MOST_METAFRAME:
            distances[length] += 1
    most = max(distances.values(), default=0)
    # A Sync word that is not there doubles a distance.
    frequent = [length for length, count in distances.items() if 2 * count >= most]
    return wanted if wanted in frequent else min(frequent, default=None)


def phase_of(places, metaframe):
    """The Sync words that stand a metaframe apart from most others, by the first of them."""
    period = CODE * metaframe
    phase = Counter(at % period for at in places).most_common(1)[0][0]
    return [at for at in places if at % period == phase]


def found_in(bits, order, wanted):
    """What the Sync words of a text of bits show, for each order of payloads with which there are some."""
    for payload, places in sync_payloads(bits).items():
        metaframe = metaframe_of(places, wanted)
        if metaframe is None:
            if places:
                yield Found(order, bits, payload, is_inverted(bits, places), places[0] - 3, None, (len(places), len(places)),
                            headers_of(bits, places[0] - 3))
            continue
        places = phase_of(places, metaframe)
        first = places[0] - 3
        tried = len(range(first, len(bits) - CODE + 1, CODE * metaframe))
        yield Found(order, bits, payload, is_inverted(bits, places), first, metaframe, (len(places), tried), headers_of(bits, first))


def is_inverted(bits, places):
    """Whether most Sync words have the header of data."""
    return 2 * sum(bits[at - 2:at] == "01" for at in places) > len(places)


def headers_of(bits, first):
    """How many codes have legal headers, and of how many, from the first of the lane on that is whole."""
    headers = legal_headers(bits)[first % CODE + 1::CODE]
    headers = headers[:(len(bits) - first % CODE) // CODE]
    return headers.count("1"), len(headers)


def is_good(found):
    """Whether most Sync words and most headers of a lane are as they should be."""
    return found.metaframe is not None and all(4 * fits >= 3 * tried for fits, tried in (found.syncs, found.headers))


def rank(found):
    """What is nearer to a lane: a metaframe, legal headers, Sync words."""
    if found is None:
        return ()
    fits, tried = found.headers
    return found.metaframe is not None, 4 * fits >= 3 * tried, found.syncs[0], -ORDERS.index(found.order)


def search(data, wanted=None, first=None, words=1 << 17):
    """What the Sync words of a lane's bytes show, or None if no order has any: of about so many words of it. A metaframe that is wanted
    is tried first, and so is an order, as that of another lane."""
    best = None
    for order in sorted(ORDERS, key=lambda order: order != first):
        best = max([best] + found_of(data[:SHORT], order, wanted), key=rank)
        if best and is_good(best):
            break
    if best is None:
        for order in (ORDERS[0], first or ORDERS[0]):
            best = max([best] + found_of(data, order, wanted), key=rank)
    if best and best.metaframe:
        part = data[:(best.first + CODE * max(words, LEAST_FRAMES * best.metaframe)) // 8 + CODE]
        best = max([found for found in found_of(part, best.order, best.metaframe) if found.payload == best.payload], key=rank)
    return best


def found_of(data, order, wanted):
    return list(found_in(in_one_order(bits_of(data), order), order, wanted))
