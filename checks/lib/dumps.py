"""Dumps of lanes as benches and their tools write them: tables and a wave of whole codes, and texts or bytes of words of any width.

    files, words = dump_of("a bus", lanes)      the files by name, and the words of `tools/lanes import` for them, without --out

`lanes` are the bits of each lane as texts.
"""

CODE = 67
RECIPE = "{inv%[0],hdr%[1:0],data%[63:0]}"


def analyser(lanes):
    """A table as a logic analyser writes it: a heading with scopes and ranges, a line of radices, columns before, and an empty one at the
    end."""
    names = ["tx/%s%d%s" % (name, lane, bits) for lane in range(len(lanes)) for name, bits in (("inv", ""), ("hdr", "[1:0]"), ("data", "[63:0]"))]
    yield "Sample in Buffer,Sample in Window,TRIGGER,%s," % ",".join('"%s"' % name for name in names)
    yield "Radix - UNSIGNED,UNSIGNED,UNSIGNED,%s," % ",".join(["HEX"] * len(names))
    for row, codes in enumerate(zip(*lanes)):
        yield "%d,%d,%d,%s," % (row, row, row == 0, ",".join("%x,%x,%016x" % (code >> 66, code >> 64 & 3, code & (1 << 64) - 1) for code in codes))


def bus(lanes):
    """All lanes in one bus, in a table of blanks, with a column that says which rows count."""
    yield "time bus[%d:0] valid" % (CODE * len(lanes) - 1)
    for row, codes in enumerate(zip(*lanes)):
        value = sum(code << CODE * lane for lane, code in enumerate(codes))
        yield "%d %x 1" % (row, value)
        if row % 3 == 0:
            yield "%d %x 0" % (row, value ^ 0x155)


def signed(lanes):
    """Payloads as numbers with a sign, headers as bits."""
    yield ";".join("%s%d" % (name, lane) for lane in range(len(lanes)) for name in ("head", "payload"))
    for codes in zip(*lanes):
        yield ";".join("%d;%d" % (code >> 64, (code & (1 << 64) - 1) - ((code >> 63 & 1) << 64)) for code in codes)


def quoted(lanes):
    yield ",".join("lane_%d" % lane for lane in range(len(lanes)))
    for codes in zip(*lanes):
        yield ",".join('"%017x"' % code for code in codes) + ",,"


def wave(lanes):
    """A value change dump with three signals of each lane."""
    names = [(name, lane, bits) for lane in range(len(lanes)) for name, bits in (("inv", 1), ("hdr", 2), ("data", 64))]
    yield "$scope module top $end"
    yield "$var wire 1 ! clk $end"
    for place, (name, lane, bits) in enumerate(names):
        yield "$var wire %d %s %s%d%s $end" % (bits, chr(40 + place), name, lane, " [%d:0]" % (bits - 1) if bits > 1 else "")
    yield "$upscope $end"
    yield "$enddefinitions $end"
    for row, codes in enumerate(zip(*lanes)):
        yield "#%d" % (10 * row)
        yield "0!"
        for place, (name, lane, bits) in enumerate(names):
            value = {"inv": codes[lane] >> 66, "hdr": codes[lane] >> 64 & 3, "data": codes[lane] & (1 << 64) - 1}[name]
            yield "b%s %s" % (format(value, "b"), chr(40 + place))
        yield "#%d" % (10 * row + 5)
        yield "1!"


TABLES = {"an analyser's table": (analyser, ["--lane", RECIPE]), "the widths of a heading": (analyser, ["--lane", "{inv%,hdr%,data%}"]), "a recipe for each lane": (analyser, None),
          "a bus": (bus, ["--lane", "bus[%*67+66:%*67]", "--valid", "valid"]), "numbers with a sign": (signed, ["--radix", "signed", "--lane", "{head%[2:0],payload%[63:0]}"]),
          "quotes": (quoted, ["--columns"]), "a wave": (wave, ["--clock", "clk", "--lane", RECIPE])}
WIDTHS = {"hex67": 67, "hex:40": 40, "hex:64": 64, "bits": 1, "raw": 8}
FORMS = ("lane files", *WIDTHS, *TABLES)


def is_of_codes(form):
    """Whether a form has whole codes, so that a lane begins with one."""
    return form in TABLES or form == "hex67"


def table_of(form, lanes):
    """The text of a table or a wave of lanes, each given by its codes as numbers, and the words of `import`."""
    maker, words = TABLES[form]
    if words is None:
        words = [word for lane in range(len(lanes)) for word in ("--lane", "{inv%d,hdr%d,data%d}" % (lane, lane, lane))]
    elif form != "quotes":
        words = ["--lanes", str(len(lanes)), *words]
    return "".join(line + "\n" for line in maker(lanes)).encode(), ["--form", "vcd" if form == "a wave" else "hex67", *words]


def dump_of(form, lanes):
    if form in TABLES:
        rows = min(map(len, lanes)) // CODE
        data, words = table_of(form, [[int(bits[CODE * row:CODE * row + CODE], 2) for row in range(rows)] for bits in lanes])
        return {"table": data}, [*words, "table"]
    files = {"dump.%d" % lane: words_of(form, bits) for lane, bits in enumerate(lanes)}
    return files, ["--form", form, *files]


def words_of(form, bits):
    """A lane in words of a form, as many as are whole."""
    width = WIDTHS[form]
    if form == "bits":
        return bits.encode() + b"\n"
    words = [int(bits[at:at + width], 2) for at in range(0, len(bits) - width + 1, width)]
    return bytes(words) if form == "raw" else "".join("%0*x\n" % (-(-width // 4), word) for word in words).encode()
