"""The calls of tools/lanes that mend lanes."""

import shlex

from probe.search import ORDERS, PAYLOADS
from probe.variants import RIGHT
from reading.plans import CODE


def mends_of(findings, names, order, drops, out):
    """The calls that put lanes in order, one after another; none if nothing has to be mended, or lanes need different options. `order`
    has for each lane the place of its file, and `drops` its bits that are left out in front, or None."""
    founds = [finding.found for finding in findings]
    if any(found is None for found in founds):
        return []
    changes, payloads = {found.order for found in founds}, {found.payload for found in founds}
    if len(changes) > 1 or len(payloads) > 1:
        return []
    options = options_of(founds, order, drops)
    change, payload = changes.pop(), payloads.pop()
    form = change.options or "--form raw"
    if payload == PAYLOADS[0]:
        if not options and change == ORDERS[0]:
            return []
        return [import_of("%s%s" % (form, options), out, names)]
    return through_codes(founds, order, form, options, payload.options, out, names)


def options_of(founds, order, drops):
    """The options of lanes, by their numbers in their order."""
    inverted = [place for place, lane in enumerate(order) if founds[lane].is_inverted]
    options = "" if order == sorted(order) else " --order " + listed(order)
    options += " --invert " + listed(inverted) if inverted else ""
    return options + (" --drop " + listed(drops[lane] for lane in order) if drops else "")


def through_codes(founds, order, form, options, payload, out, names):
    """The calls that have the lanes as codes between, since only these have payloads."""
    if "--drop" not in options:
        options += " --drop " + listed(founds[lane].first % CODE for lane in order)
    codes = out + ".codes"
    lanes = ["%s.lane.%d" % (codes, lane) for lane in range(len(order))]
    return [import_of(form + options, codes, names),
            "tools/lanes export --form hex67 --columns --out %s %s" % (shlex.quote(codes), " ".join(map(shlex.quote, lanes))),
            import_of("%s --columns" % payload, out, [codes])]


def adapt_of(findings, stream, names, out):
    """The call that adapts lanes of another convention, or None if nothing is to be adapted, or lanes need different options."""
    own = {tuple(lane_options(finding)) for finding in findings if finding.frames}
    if len(own) != 1 or not all(map(can_be_read, findings)):
        return None
    options = [*own.pop(), *(stream.adapted() if stream else ())]
    if not options:
        return None
    return "tools/lanes adapt %s --out %s %s" % (" ".join(options), shlex.quote(out), " ".join(map(shlex.quote, names)))


def can_be_read(finding):
    """Whether `lanes adapt` can read the words of a lane."""
    scrambler = finding.scrambler
    return bool(finding.frames) and scrambler is not None and (scrambler.name() == RIGHT or scrambler.adapted() is not None)


def lane_options(finding):
    """The options of `lanes adapt` that mend a lane."""
    if finding.scrambler is not None and finding.scrambler.adapted():
        yield finding.scrambler.adapted()
    if finding.crc32 not in (None, RIGHT):
        yield "--crc32 " + finding.crc32


def lane_name(out, lane):
    return "%s.lane.%d" % (out, lane)


def import_of(options, out, names):
    return "tools/lanes import %s --out %s %s" % (options, shlex.quote(out), " ".join(map(shlex.quote, names)))


def listed(numbers):
    return ",".join(map(str, numbers))
