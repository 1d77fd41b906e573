"""How the word of a lane is put together of named columns of a table, or of signals of a wave: the recipes of `--lane`.

    {inv%[0],hdr%[1:0],data%[63:0]}     the highest bit first; % is the number of the lane
    bus[%*67+66:%*67]                   numbers of bits may be sums of %*N and M
"""

import re
from collections import namedtuple

from reading.files import Refused

ITEM = re.compile(r"([^\[\]{},\s]+)(?:\[([^\[\]:]+)(?::([^\[\]:]+))?\])?")
NUMBER = re.compile(r"(?:%(?:\*(\d{1,6}))?)?(?:(?:(?<=.)\+)?(\d{1,6}))?")

# A part of a recipe for one lane: a name, its highest and lowest bit, or None for all, and whether it is a whole column or signal.
Part = namedtuple("Part", "name high low is_whole")


def recipes_of(texts, lanes):
    """The recipes of lanes as lists of parts: one for each lane, or one for so many."""
    if lanes is not None and len(texts) != 1:
        raise Refused("--lanes is for one --lane, and here are %d" % len(texts))
    return [parts_of(texts[0], lane) for lane in range(lanes)] if lanes is not None else [parts_of(text, lane) for lane, text in enumerate(texts)]


def parts_of(text, lane):
    """The parts of a recipe for a lane."""
    bare = "".join(text.split())
    inner = bare[1:-1] if bare.startswith("{") and bare.endswith("}") else bare
    return [part_of(item, text, lane) for item in inner.split(",")]


def part_of(item, text, lane):
    found = ITEM.fullmatch(item)
    if found is None:
        raise Refused("--lane %s: %r is none of NAME, NAME[BIT] and NAME[HIGH:LOW]" % (text, item))
    high = None if found[2] is None else number_of(found[2], text, lane)
    low = high if found[3] is None else number_of(found[3], text, lane)
    if high is not None and high < low:
        raise Refused("--lane %s: %s: the highest bit comes first" % (text, item))
    return Part(found[1].replace("%", "%d" % lane), high, low, high is None)


def number_of(text, recipe, lane):
    """The number of a bit: N, %, %*N, %+M or %*N+M."""
    found = NUMBER.fullmatch(text)
    if found is None or not text:
        raise Refused("--lane %s: %r is no number of a bit; %%*N+M is one" % (recipe, text))
    times = lane * int(found[1] or 1) if "%" in text else 0
    return times + int(found[2] or 0)


def with_widths(parts, widths, width, recipe):
    """The parts with their bits, if `widths` has those of some names (None if it is not known), of a word of `width` bits or of any. A part
    without bits gets what the others leave."""
    known = [part if part.high is not None else part._replace(high=widths[part.name] - 1, low=0) if widths[part.name] else part for part in parts]
    open_parts = [part for part in known if part.high is None]
    used = sum(part.high - part.low + 1 for part in known if part.high is not None)
    if len(open_parts) > 1 or open_parts and (width is None or used >= width):
        raise Refused("--lane %s: how many bits has %s? Write %s[HIGH:LOW]" % (recipe, open_parts[0].name, open_parts[0].name))
    known = [part if part.high is not None else part._replace(high=width - used - 1, low=0) for part in known]
    found = sum(part.high - part.low + 1 for part in known)
    if width is not None and found != width:
        raise Refused("--lane %s: it has %d bits, and the form %d" % (recipe, found, width))
    return known


def place_of(name, names, what, where):
    """The place of the one name that fits: the whole name, or what stands behind its scopes, without a range."""
    fits = [place for place, own in enumerate(names) if own == name] or [place for place, own in enumerate(names) if bare(own) == bare(name)]
    fits = fits or [place for place, own in enumerate(names) if last_part(own) == name]
    if not fits:
        raise Refused("%s: no %s %s; there are %s" % (where, what, name, ", ".join(names)))
    if len(fits) > 1:
        raise Refused("%s: %s fits two of the %ss, %s and %s" % (where, name, what, names[fits[0]], names[fits[1]]))
    return fits[0]


def bare(name):
    return re.sub(r"\s*\[\d+(?::\d+)?\]$", "", name)


def last_part(name):
    return re.split(r"[./]", bare(name))[-1]


def width_of(name):
    """The bits of a name by its range, or None."""
    found = re.search(r"\[(\d+):(\d+)\]$", name)
    return abs(int(found[1]) - int(found[2])) + 1 if found else None
