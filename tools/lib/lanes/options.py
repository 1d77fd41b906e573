"""The options of `lanes`, and what they come to."""

from collections import namedtuple

from lanes.recipes import recipes_of
from reading.bit_orders import bits_reversed, bytes_swapped, in_order
from reading.ending import Options
from reading.plans import CODE, PLAN

HEX67, HEX, BITS, RAW, VCD = "hex67", "hex", "bits", "raw", "vcd"
MOST_WIDTH, MOST_OF_RECIPE = 256, 8192
RADICES = ("hex", "bin", "dec", "signed")
HEADER = 3  # bits of a code before its payload
OF_CODES = ("payload_reversed", "payload_bytes_swapped", "headers_swapped")

# What the options come to. `form` is one of those above, and `width` the bits of a word, None if each signal of a VCD has its own;
# `order` has for each lane the number of its dump, or None; `inverted` are the numbers of lanes, and `drops` by lane the bits left out.
Settings = namedtuple("Settings", "is_export form width columns lowest_first bytes_swapped payload_reversed payload_bytes_swapped headers_swapped "
                      "order inverted drops signals clock valid recipes texts radix out overwrite files")


def parser_of():
    parser = Options(prog="lanes", description="Makes lane files of a device's dumps, and dumps of lane files.")
    parser.add_argument("action", choices=("import", "export"), help="`import` writes OUT.lane.0, .. of dumps; `export` writes dumps of lane files")
    parser.add_argument("files", nargs="+", metavar="FILE", help="the dumps, or the lane files, lane 0 first")
    parser.add_argument("--form", required=True, metavar="FORM", help="hex67, hex:W, bits, raw, raw:W or vcd, with W from 1 to %d" % MOST_WIDTH)
    parser.add_argument("--out", required=True, metavar="OUT", help="the prefix of lane files, or the name of dumps")
    parser.add_argument("--overwrite", action="store_true", help="existing files are replaced")
    parser.add_argument("--columns", action="store_true", help="one text has a column for each lane")
    parser.add_argument("--lowest-first", action="store_true", help="the lowest bit of each word is first on the lane")
    parser.add_argument("--bytes-swapped", action="store_true", help="the bytes of each word are in the other order")
    parser.add_argument("--payload-reversed", action="store_true", help="hex67: the 64 payload bits are in the other order")
    parser.add_argument("--payload-bytes-swapped", action="store_true", help="hex67: the 8 payload bytes are in the other order")
    parser.add_argument("--headers-swapped", action="store_true", help="hex67: the two header bits are exchanged")
    parser.add_argument("--order", metavar="A,B,..", help="for lane 0, 1, .. the number of its dump, column or signal")
    parser.add_argument("--invert", metavar="I,J,..", help="lanes whose bits are complemented")
    parser.add_argument("--drop", metavar="A,B,..", help="for lane 0, 1, .. the bits that are left out in front")
    parser.add_argument("--signal", action="append", default=[], metavar="NAME", help="vcd: the vector of a lane, once for each lane")
    parser.add_argument("--lane", action="append", default=[], metavar="RECIPE", help="hex67, hex:W, vcd: how a lane's word is put together of named columns or signals")
    parser.add_argument("--lanes", metavar="N", help="the one --lane is that of so many lanes, with %% for the number of each")
    parser.add_argument("--radix", choices=RADICES, help="--lane: the form of the numbers; hex, or what the table says, if it is not named")
    parser.add_argument("--clock", metavar="NAME", help="vcd: the signal whose changes from 0 to 1 sample")
    parser.add_argument("--valid", metavar="NAME", help="vcd, --lane: the signal or column that is 1 while words count")
    return parser


def settings_of(words):
    parser = parser_of()
    given = parser.parse_intermixed_args(words)
    form, width = form_of(parser, given.form, MOST_OF_RECIPE if given.lane else MOST_WIDTH)
    recipes = recipes_in(parser, given)
    given.columns = given.columns or bool(recipes) and form != VCD
    must_fit(parser, given, form, width)
    numbers = {name: numbers_of(parser, name, getattr(given, name)) for name in ("order", "invert", "drop")}
    for name in ("order", "invert"):
        if len(set(numbers[name] or ())) < len(numbers[name] or ()):
            parser.error("--%s %s: a number stands twice" % (name, getattr(given, name)))
    return Settings(given.action == "export", form, width, given.columns, given.lowest_first, given.bytes_swapped, *(getattr(given, name) for name in OF_CODES),
                    numbers["order"], set(numbers["invert"] or ()), numbers["drop"] or [], given.signal, given.clock, given.valid, recipes, given.lane, given.radix, given.out, given.overwrite, given.files)


def recipes_in(parser, given):
    """The recipes of lanes, or none."""
    if not given.lane:
        if given.lanes or given.radix:
            parser.error("--lanes and --radix are of --lane")
        return []
    if given.action == "export" or given.form.partition(":")[0] not in (HEX67, HEX, VCD):
        parser.error("--lane is of import in the forms hex67, hex:W and vcd")
    if given.signal:
        parser.error("--lane and --signal: one of them says what a lane is")
    if given.lanes is not None and not (given.lanes.isascii() and given.lanes.isdigit() and 1 <= int(given.lanes) <= PLAN["lanes"].most):
        parser.error("--lanes %s: a number from 1 to %d" % (given.lanes[:40], PLAN["lanes"].most))
    return recipes_of(given.lane, given.lanes and int(given.lanes))


def form_of(parser, text, most_width):
    """The form and the width of its words."""
    name, colon, width = text.partition(":")
    if text == HEX67:
        return HEX67, CODE
    if text in (BITS, RAW, VCD):
        return text, {BITS: 1, RAW: 8, VCD: None}[text]
    if name not in (HEX, RAW) or not colon:
        parser.error("--form %s: the forms are hex67, hex:W, bits, raw, raw:W and vcd" % text)
    if not (width.isascii() and width.isdigit() and 1 <= int(width) <= most_width):
        parser.error("--form %s: W is a number from 1 to %d" % (text, most_width))
    return name, int(width)


def must_fit(parser, given, form, width):
    """An error if an option is not one of the form, or one is missing."""
    for name in OF_CODES:
        if getattr(given, name) and form != HEX67:
            parser.error("--%s is of --form hex67 alone" % name.replace("_", "-"))
    if given.lowest_first and form == BITS:
        parser.error("--lowest-first: the form bits has no words")
    if given.bytes_swapped and (form in (HEX67, BITS) or given.form == RAW or width is not None and width % 8):
        parser.error("--bytes-swapped: the form %s has no words of whole bytes" % given.form)
    if given.columns and form in (RAW, VCD):
        parser.error("--columns: the form %s is no text with columns" % given.form)
    if given.action == "import" and given.columns and len(given.files) > 1:
        parser.error("--columns: one dump has all lanes, and here are %d" % len(given.files))
    must_be_signals(parser, given, form)


def must_be_signals(parser, given, form):
    if form != VCD:
        if given.signal or given.clock or given.valid and not given.lane:
            parser.error("--signal and --clock are of --form vcd, --valid of that and of --lane")
        return
    if given.action == "export":
        parser.error("--form vcd: there is no export of this form; tools/waves writes waves")
    if not (given.signal or given.lane) or not given.clock:
        parser.error("--form vcd: --clock and a --signal or a --lane for each lane are needed")
    if len(given.files) > 1:
        parser.error("--form vcd: one dump has all lanes, and here are %d" % len(given.files))


def numbers_of(parser, name, text):
    """The numbers of an option, or None."""
    if text is None:
        return None
    fields = text.split(",")
    if not all(field.isascii() and field.isdigit() and len(field) <= 15 for field in fields):
        parser.error("--%s %s: numbers with commas between are expected" % (name, text))
    return [int(field) for field in fields]


def lanes_of(settings, count):
    """For each lane the number of its dump, of so many; an error if an option names another."""
    error, most = parser_of().error, PLAN["lanes"].most
    order = list(range(count)) if settings.order is None else settings.order
    for number in order:
        if number >= count:
            error("--order: there is no number %d; the last is %d" % (number, count - 1))
    if settings.is_export and len(order) != count:
        error("--order: %d numbers, and there are %d lanes" % (len(order), count))
    if len(order) > most:
        error("%d lanes, and an interface has 1 to %d" % (len(order), most))
    for number in settings.inverted:
        if number >= len(order):
            error("--invert: there is no lane %d; the last is %d" % (number, len(order) - 1))
    if len(settings.drops) > len(order):
        error("--drop: %d numbers, and there are %d lanes" % (len(settings.drops), len(order)))
    return order


def drop_of(settings, lane):
    return settings.drops[lane] if lane < len(settings.drops) else 0


def places_of(settings, width):
    """How words of a dump get in the order of the lane (see `reading.bit_orders`)."""
    places = in_order(width)
    if settings.bytes_swapped:
        places = bytes_swapped(places)
    if settings.lowest_first:
        places = bits_reversed(places)
    head, payload = places[:HEADER], places[HEADER:]
    if settings.headers_swapped:
        head = (head[0], head[2], head[1])
    if settings.payload_reversed:
        payload = bits_reversed(payload)
    if settings.payload_bytes_swapped:
        payload = bytes_swapped(payload)
    return head + payload
