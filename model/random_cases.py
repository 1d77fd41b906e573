"""Random cases for the comparison of program and model: files and words of the command line, right ones and malformed ones, drawn
from a seed.

Each kind draws on purpose what is rare: each cause of a refusal, each reason of a drop, each way to lose a lock, accidents, streams
that are held.
"""

from random import Random
from typing import Callable, NamedTuple, Sequence

import fields
import lanes
import oob
import random_inputs as drawn
import random_listings
import words_file
from checksum import CRC24
from fields import BAD, CONTROL, DATA, Word
from inputs import MOST_EVENTS
from link import CODE_BITS, Link
from random_inputs import Drawn
from stream import payload_stream


class Case(NamedTuple):
    """The words of the command line, the files that lie there, and whether a plan among them is wide."""
    words: list[str]
    files: dict[str, bytes]
    wide: bool = False


# ---- streams

def capture_case(r: Random) -> Case:
    """`burst` of a capture without a plan."""
    of = drawn.packets(r, 12)
    data = drawn.spoiled_capture(r, of) if r.randrange(3) == 0 else drawn.capture(r, of)
    return Case(["burst", "a.pcap"], {"a.pcap": data} if r.randrange(20) else {})


def plan_case(command: str) -> Callable[[Random], Case]:
    """A command that makes a stream of a plan."""
    def make(r: Random) -> Case:
        d = Drawn(r)
        if r.randrange(2):
            d.add_flow()
        if r.randrange(3) == 0:
            d.add_local()
        if r.randrange(4) == 0:
            d.rows += [["schedule", "none"], ["window", 3]]
        return Case([command, "p.plan"], d.spoil() if r.randrange(3) == 0 else d.all_files(), d.wide)
    return make


def link_case(r: Random) -> Case:
    """`link` of a plan with a schedule."""
    d = Drawn(r, longest=r.choice([None, 500]))
    if r.randrange(3) == 0:
        d.add_flow()
    if r.randrange(4) == 0:
        d.add_local()
    if r.randrange(12):
        d.add_rows("schedule", "s.csv", drawn.schedule_rows(r, d.plan, lane_length(d)))
    return Case(["link", "p.plan"], d.spoil() if r.randrange(4) == 0 else d.all_files(), d.wide)


def lane_length(d: Drawn) -> int:
    """The bits of a sent lane."""
    return len(payload_stream(d.source()).words) // d.plan.link.group * d.plan.link.period


def channels_case(r: Random) -> Case:
    """`burst` or `link` of a thousand wide channels, or of as many narrow ones as there are."""
    wide = r.randrange(2) == 1
    numbers = r.sample(range(65_536), r.choice([1_000, 1_024, 1_024, 1_025])) if wide else r.sample(range(256), 256)
    files = {"%d.pcap" % n: drawn.capture(r, [drawn.packet(r, r.choice([1, 9, 65])) for _ in range(n)]) for n in range(3)}
    names = ["", "", "", ",0.pcap", ",1.pcap", ",2.pcap"]
    rows = ["lanes,%d" % r.randint(1, 4), "metaframe,%d" % r.randint(32, 64), "warmup,4", "out,o", "schedule,s.csv"]
    rows += ["wide,1"] * wide
    rows += ["channel,%d%s" % (n, r.choice(names)) for n in numbers]
    rows += ["entry,%d" % r.choice(numbers) for _ in range(r.choice([0, 0, 1_024, 1_025]))]
    files["p.plan"] = "".join(row + "\n" for row in rows).encode()
    files["s.csv"] = b"flip,0,%d\n" % r.randrange(40_000)
    return Case([r.choice(["burst", "link"]), "p.plan"], files, wide)


def generate_case(r: Random) -> Case:
    """`generate`, with prefixes that need quotes, over files that are replaced."""
    prefix = r.choice(["g", "g", "a,b", 'a"b', "\u00e9 \u2603", "g.plan", "p" * 180])
    number = r.choice([r.randrange(1_000), r.getrandbits(64), 2 ** 64 - 1])
    zeros = r.choice(["", "0"]) if number < 10 ** 18 else ""
    return Case(["generate", zeros + str(number), prefix], {prefix[:100] + ".plan": b"old"})


# ---- words of the command line

def words_case(r: Random) -> Case:
    """Words that are accepted or not, names at their limits, outputs in a folder that is not there."""
    d = Drawn(r)
    d.rows = [row for row in d.rows if row[0] != "out"] + [["out", r.choice(["o", "no/o", "o" * 200, "p", '"\u00fc,"', "-o"])]]
    words = r.choice([accepted_words, accepted_words, odd_words, odd_words, words_of_generate])(r)
    return Case(words, d.all_files(), d.wide)


def accepted_words(r: Random) -> list[str]:
    """A command with the name of the plan or an odd name, which is accepted."""
    command = r.choice(["burst", "send", "link", "oobwrite", "join", "receive", "list"])
    return [command, r.choice(["p.plan", "p.plan", "p.plan", "n" * 255, "\u00e9" * 127, "no/p.plan", ".plan", "o"])]


def odd_words(r: Random) -> list[str]:
    """Another command or name, or another number of words."""
    command = r.choice(["burst", "join", "receive", "resend", "list", "assemble", "Burst", "", "help", "link "])
    name = r.choice(["p.plan", "p.plan", "q.plan", "-", "-p.plan", "", "n" * 256, "\u00e9" * 128, "c0.pcap"])
    return r.choice([[command, name], [command, name], [command, name], [command, name, name], [command], [name, command], []])


def words_of_generate(r: Random) -> list[str]:
    """`generate` with an odd number or an odd prefix, so that no whole case is generated."""
    number = r.choice(["0", "1" * 20, "18446744073709551616", "9" * 20, "0" * 21, "", "x1", "-1", " 1", "1.", "\u0661"])
    words = ["generate", number, r.choice(["no/g", "", "-g", "g" * 181])]
    return r.choice([words, words, words[:2], words + ["x"]])


# ---- received words

def mutated_words(r: Random, words: Sequence[Word]) -> list[Word]:
    """A stream with a few words that break rules, or pass them: fields of control words are changed and sealed anew,
    words change their kind, are lost, repeated, moved or damaged."""
    found = list(words)
    # Most of a stream's bursts stand in its second half.
    for _ in range(r.choice([0, 1, 2, 4, 9])):
        if found:
            r.choice(MUTATIONS)(r, found, r.randrange(r.choice([0, len(found) // 2]), len(found)))
    return found


def change_fields(r: Random, words: list[Word], at: int) -> None:
    """The next control word gets other fields, and its right CRC24."""
    at = next_control(words, at, lambda number: True)
    if at is None:
        return
    low, high = r.choice([(57, 61), (57, 58), (60, 61), (61, 62), (62, 63), (32, 40), (24, 32), (62, 64), (57, 64)])
    number = words[at].number
    for bit in range(low, high):
        number ^= r.randrange(2) << bit
    words[at] = Word(CONTROL, number if r.randrange(5) else number | 1 << 57 & ~(0b111 << 58))
    seal(words, at)


def next_control(words: Sequence[Word], begin: int, fits: Callable) -> int | None:
    """The next Control word whose number fits."""
    return next((at for at in range(begin, len(words)) if words[at].kind == CONTROL and fits(words[at].number)), None)


def seal(words: list[Word], at: int) -> None:
    """Gives a control word the CRC24 of the data words before it and itself."""
    data = []
    while at - len(data) > 0 and words[at - len(data) - 1].kind == DATA:
        data.insert(0, words[at - len(data) - 1].number)
    words[at] = Word(words[at].kind, fields.sealed(data, words[at].number))


def change_end(r: Random, words: list[Word], at: int) -> None:
    """A packet ends with an error, at another byte, not at all, or by an end format that is none."""
    at = next_control(words, at, fields.end_format)
    if at is not None:
        words[at] = Word(CONTROL, words[at].number & ~(0b1111 << 57) | r.choice([0, 1, 1, 1, 2, 7, 8, 9, 12]) << 57)
        seal(words, at)


def invert_bit(r: Random, words: list[Word], at: int) -> None:
    """One bit of a word is inverted."""
    words[at] = Word(words[at].kind, words[at].number ^ 1 << r.randrange(64))


def change_kind(r: Random, words: list[Word], at: int) -> None:
    """A word becomes one of another kind."""
    words[at] = Word(r.choice([DATA, CONTROL, BAD, BAD]), words[at].number)


def lose(r: Random, words: list[Word], at: int) -> None:
    """Words are lost, or the end is."""
    del words[at:at + r.choice([1, 1, 3, 33, 10_000])]


def repeat(r: Random, words: list[Word], at: int) -> None:
    """Words stand twice."""
    words[at:at] = words[at:at + r.choice([1, 9, 40])]


def put_control(r: Random, words: list[Word], at: int) -> None:
    """A sealed control word of any fields stands between others."""
    end = r.choice([0, 0, 1, 8, 9, r.randrange(16)])
    channel, multi = r.choice([0, 1, 2, 9]), r.choice([0, 0, 1])
    number = fields.control_number(r.randrange(2), r.randrange(2), end, r.randrange(2), 0xFFFF, channel, multi)
    words.insert(at, Word(CONTROL, number))
    seal(words, at)


def lose_sop(r: Random, words: list[Word], at: int) -> None:
    """A burst word that begins a packet does so no longer."""
    at = next_control(words, at, fields.has_sop)
    if at is not None:
        words[at] = Word(CONTROL, words[at].number & ~(1 << 61))
        seal(words, at)


def end_early(r: Random, words: list[Word], at: int) -> None:
    """A packet ends where it goes on."""
    at = next_control(words, at, lambda number: fields.begins_burst(number) and not fields.has_sop(number))
    if at is not None:
        words[at] = Word(CONTROL, words[at].number | 0b1000 << 57)
        seal(words, at)


MUTATIONS = (
    change_fields, change_fields, change_end, change_end, change_end, lose_sop, end_early, invert_bit, change_kind, lose, repeat,
    put_control,
)


def far_end(r: Random, d: Drawn) -> list[list]:
    """The rows of a receiver's plan: those of the sender, with other channels, a shorter longest packet or the other
    form of numbers."""
    rows = [row for row in d.rows if row[0] not in ("flow", "local", "max_packet", "entry")]
    listed = [row for row in rows if row[0] == "channel"]
    if len(listed) > 1 and r.randrange(3) == 0:
        rows.remove(r.choice(listed))
    if r.randrange(8) == 0 and all(row[1] < 256 for row in listed):
        rows = [row for row in rows if row[0] != "wide"] + [["wide", r.randrange(2)]]
    return rows + ([["max_packet", r.choice([8, 8, 60, 100, 256])]] if r.randrange(2) == 0 else [])


def join_case(r: Random) -> Case:
    """`join` of a stream's words, mutated or not, by its plan, another plan or none; and of files that are none."""
    d = Drawn(r)
    words = mutated_words(r, payload_stream(d.source()).words)
    if r.randrange(10) == 0:
        words = [random_listings.word(r) for _ in range(r.choice([0, 1, 30]))]
    data = words_file.file_of_words(words)
    if r.randrange(6) == 0:
        at = 9 * r.randrange(len(data) // 9 + 1)
        data = r.choice([data[:at] + bytes([r.choice([0, 4, 255])]) + data[at + 1:], data[:r.randrange(len(data) + 1)]])
    if r.randrange(3) == 0:
        return Case(["join", "a.words"], {"a.words": data} if r.randrange(20) else {})
    files = {"p.plan": drawn.spelled(r, far_end(r, d)), "o.words": data}
    if r.randrange(10) == 0:
        files = r.choice([{"p.plan": files["p.plan"]}, {"o.words": data}, {**files, "p.plan": drawn.spoiled_plan(r, d.rows)}])
    return Case(["join", "p.plan"], files, d.wide)


def stripe_case(r: Random) -> Case:
    """`stripe` of a stream's words, mutated or not, cut or not, and of any words; now and then one is bad, has another tag or is
    not whole, and the plan or the words file is not there."""
    d = Drawn(r)
    words = [word for word in mutated_words(r, payload_stream(d.source()).words) if word.kind != BAD or r.randrange(40) == 0]
    words = r.choice([words, words, words[:r.randrange(len(words) + 1)], [random_listings.word(r) for _ in range(r.choice([0, 1, 30]))]])
    data = words_file.file_of_words(words)
    if r.randrange(8) == 0:
        at = 9 * r.randrange(len(data) // 9 + 1)
        data = r.choice([data[:at] + bytes([r.choice([0, 3, 4, 255])]) + data[at + 1:], data[:r.randrange(len(data) + 1)]])
    files = {"p.plan": drawn.spelled(r, far_end(r, d)), "o.words": data}
    if r.randrange(12) == 0:
        files = r.choice([{"p.plan": files["p.plan"]}, {"o.words": data}, {**files, "p.plan": drawn.spoiled_plan(r, d.rows)}])
    return Case(["stripe", "p.plan"], files, d.wide)


def flow_rows(r: Random, entries: Sequence[int], slots: int) -> bytes:
    """Rows of a flow file, in order of slot, by which entries go off and on; some of their words are valid, and some are not."""
    numbers = [fields.sealed([], fields.control_number(False, False, 0, r.randrange(3) > 0, r.getrandbits(16), 0, 0)) for _ in range(r.choice([1, 2, 6]))]
    spoiled = [number ^ (r.randrange(6) == 0) << r.randrange(64) for number in numbers]
    slots_of = sorted(r.randrange(slots + 1) for _ in spoiled)
    return "".join("%d,%016X\n" % row for row in zip(slots_of, spoiled)).encode()


def check_case(r: Random) -> Case:
    """`check` of a stream's words, mutated or not, cut or not, by its plan or another, with a flow file or without one, and of any
    words; now and then the words file has another tag or is not whole, and a file is not there."""
    d = Drawn(r)
    words = payload_stream(d.source()).words
    words = mutated_words(r, words) if r.randrange(8) else words
    begin = r.choice([0, 0, r.randrange(len(words) + 1)])
    words = r.choice([words, words, words[begin:], words[:r.randrange(len(words) + 1)], [random_listings.word(r) for _ in range(r.choice([0, 1, 30]))]])[:600]
    data = words_file.file_of_words(words)
    if r.randrange(10) == 0:
        at = 9 * r.randrange(len(data) // 9 + 1)
        data = r.choice([data[:at] + bytes([r.choice([0, 4, 255])]) + data[at + 1:], data[:r.randrange(len(data) + 1)]])
    rows = far_end(r, d) + [["burst_min", r.choice([0, 32, 32])]]
    rows = rows if sum(row[0] == "burst_min" for row in rows) == 1 else rows[:-1]
    files = {"o.words": data}
    if r.randrange(2):
        rows, files = rows + [["flow", "f.csv"]], {**files, "f.csv": flow_rows(r, d.plan.entries, len(words))}
    files["p.plan"] = drawn.spoiled_plan(r, d.rows) if r.randrange(20) == 0 else drawn.spelled(r, rows)
    if r.randrange(12) == 0:
        del files[r.choice(sorted(files))]
    return Case(["check", "p.plan"], files, d.wide)


def damage_case(r: Random) -> Case:
    """`damage` of the lanes of a stream, or of any bytes, by a schedule, some of whose rows begin at the ends of lanes or beyond;
    now and then there is no schedule, a file is spoiled, or one is not there."""
    d = Drawn(r)
    words = payload_stream(d.source()).words
    made = [lanes.file_of_bits(lanes.lane_bits(words, d.plan.link, lane)) for lane in range(d.plan.link.lanes)]
    for _ in range(r.choice([0, 0, 1, 2])):
        made[r.randrange(len(made))] = r.choice([b"", b"\x80", r.randbytes(r.choice([9, 300, 3_000])), b"\xff" * 700, bytes(200)])
    rows = drawn.schedule_rows(r, d.plan, max(8 * len(made[0]), CODE_BITS)) if r.randrange(6) else []
    rows += [row for lane, data in enumerate(made) for row in rows_at_end(r, lane, 8 * len(data))]
    r.shuffle(rows)
    if r.randrange(10):
        d.add_rows("schedule", "s.csv", rows)
    found = d.spoil() if r.randrange(8) == 0 else d.all_files()
    found.update(("o.lane.%d" % lane, data) for lane, data in enumerate(made))
    if r.randrange(16) == 0:
        del found[r.choice([name for name in found if ".lane." in name])]
    return Case(["damage", "p.plan"], found, d.wide)


def rows_at_end(r: Random, lane: int, bits: int) -> list[list]:
    """Rows that name the last bits of a lane, its padding among them, or bits beyond them, one of them several times."""
    rows = []
    for _ in range(r.choice([0, 0, 1, 3])):
        first = max(0, bits + r.choice([-9, -8, -1, -1, 0, 0, 1, 5_000]))
        rows += [r.choice([["flip", lane, first], ["dark", lane, first, r.choice([1, 2, 9, 999_999_999_999])]])] * r.choice([1, 1, 2, 3])
    return rows


# ---- received lanes

def receive_case(r: Random) -> Case:
    """`receive` of the lanes of a stream whose words are mutated and whose bits are damaged, cut, moved, swapped or
    noise."""
    d = Drawn(r)
    words = mutated_words(r, payload_stream(d.source()).words)
    # A sender has no Bad words; damaged headers make them.
    words = [word for word in words if word.kind != BAD]
    words = words[:len(words) - len(words) % d.plan.link.group]
    bits = [lanes.lane_bits(words, d.plan.link, lane) for lane in range(d.plan.link.lanes)]
    if r.randrange(2):
        bits = struck(r, d, bits)
    for _ in range(r.choice([0, 0, 1, 2])):
        r.choice(SPOILS)(r, bits, r.randrange(len(bits)), d.plan.link)
    return Case(["receive", "p.plan"], receive_files(r, d, bits), d.wide)


def lanes_case(command: str) -> Callable[[Random], Case]:
    """A command on lanes that come as those of `receive` and `link` do, on lanes that repeat themselves, on lanes of other bytes, and on
    lanes some of which are not there."""
    def make(r: Random) -> Case:
        case = r.choice(LANES)(r)
        found = dict(case.files)
        names = sorted(name for name in found if ".lane." in name)
        if names and r.randrange(6) == 0:
            found[r.choice(names)] = r.choice([b"", b"\x78", r.randbytes(r.choice([9, 600, 3_000])), bytes(2_000)])
        if r.randrange(8) == 0:
            # A file of the name of an output lies there.
            found[r.choice(["o.words", "o.places.csv", "o.events.csv"])] = b"old"
        if r.randrange(30) == 0:
            del found[r.choice(sorted(found))]
        return Case([command, "p.plan"], found, case.wide)
    return make


def linked_case(r: Random) -> Case:
    """The lanes of a stream as a link with drawn damage leaves them."""
    d = Drawn(r)
    words = payload_stream(d.source()).words
    bits = struck(r, d, [lanes.lane_bits(words, d.plan.link, lane) for lane in range(d.plan.link.lanes)])
    return Case(["receive", "p.plan"], receive_files(r, d, bits), d.wide)


def begun_again_case(r: Random) -> Case:
    """The lanes of a stream that begin again once or twice, all of them or some, with a gap between or none, so that locks are lost
    and declared anew."""
    d = Drawn(r)
    words = payload_stream(d.source()).words
    sent = [lanes.lane_bits(words, d.plan.link, lane) for lane in range(d.plan.link.lanes)]
    bits = struck(r, d, sent) if r.randrange(2) else list(sent)
    for _ in range(r.choice([1, 1, 2])):
        gap = r.choice(["", "", "1", "0" * 67, "0" * 67 * 20, "01" * 600])
        some = range(len(bits)) if r.randrange(3) else r.sample(range(len(bits)), r.randint(1, len(bits)))
        for lane in some:
            bits[lane] += gap + sent[lane][r.choice([0, 0, 0, 1, d.plan.link.period]):]
    if r.randrange(3) == 0:
        r.choice(SPOILS)(r, bits, r.randrange(len(bits)), d.plan.link)
    return Case(["receive", "p.plan"], receive_files(r, d, bits), d.wide)


def receive_files(r: Random, d: Drawn, bits: Sequence[str]) -> dict[str, bytes]:
    """A plan and its lanes; sometimes a lane is not there."""
    files = {"o.lane.%d" % lane: lanes.file_of_bits(part) for lane, part in enumerate(bits)}
    if r.randrange(20) == 0:
        del files[r.choice(sorted(files))]
    rows = far_end(r, d)
    return {**files, "p.plan": drawn.spoiled_plan(r, rows) if r.randrange(20) == 0 else drawn.spelled(r, rows)}


def struck(r: Random, d: Drawn, bits: Sequence[str]) -> list[str]:
    """Lanes that are damaged as by a schedule."""
    return struck_by(drawn.schedule_rows(r, d.plan, max(len(bits[0]), CODE_BITS)), bits)


def struck_by(rows: Sequence[Sequence], bits: Sequence[str]) -> list[str]:
    """Lanes that are damaged by these rows of a schedule."""
    found = []
    for lane, part in enumerate(bits):
        own = [row for row in rows if row[1] == lane]
        skew = next((row[2] for row in own if row[0] == "skew"), 0)
        flips = tuple(row[2] for row in own if row[0] == "flip")
        darks = tuple(lanes.Dark(*row[2:]) for row in own if row[0] == "dark")
        found.append(lanes.received(part, lanes.Damage(skew, flips, darks)))
    return found


def cut_front(r: Random, bits: list[str], lane: int, link: Link) -> None:
    """The first bits are gone."""
    bits[lane] = bits[lane][r.randrange(len(bits[lane]) + 1):]


def cut_end(r: Random, bits: list[str], lane: int, link: Link) -> None:
    """The last bits are gone."""
    bits[lane] = bits[lane][:r.randrange(len(bits[lane]) + 1)]


def swap(r: Random, bits: list[str], lane: int, link: Link) -> None:
    """Two lanes stand in each other's place, or one stands twice."""
    other = r.randrange(len(bits))
    bits[lane], bits[other] = bits[other], r.choice([bits[lane], bits[other]])


def noise(r: Random, bits: list[str], lane: int, link: Link) -> None:
    """Random bits stand in front, between or in place of others."""
    at, count = r.randrange(len(bits[lane]) + 1), r.choice([1, 5, 66, 67, 700, 5_000])
    bits[lane] = bits[lane][:at] + format(r.getrandbits(count), "0%db" % count) + bits[lane][at + r.choice([0, count]):]


def slip(r: Random, bits: list[str], lane: int, link: Link) -> None:
    """Bits in the middle are gone."""
    at = r.randrange(len(bits[lane]) + 1)
    bits[lane] = bits[lane][:at] + bits[lane][at + r.choice([1, 3, 66, 67, 67 * 32]):]


def twice(r: Random, bits: list[str], lane: int, link: Link) -> None:
    """All lanes come twice, one after the other."""
    gap = r.choice(["", "1", "0" * 67, "01" * 600])
    bits[:] = [part + gap + part for part in bits]


def end_together(r: Random, bits: list[str], lane: int, link: Link) -> None:
    """One lane is over where another loses its lock, at the end of a metaframe: the fourth of wrong Syncs is the
    next."""
    turn, other = r.randrange(7, 10), r.randrange(len(bits))
    bits[lane] = bits[lane][:link.period * turn]
    syncs = tuple(link.period * (turn - back) + 9 for back in range(4))
    bits[other] = lanes.received(bits[other], lanes.Damage(0, syncs))


SPOILS = (cut_front, cut_end, swap, noise, slip, twice, end_together, end_together)


def regular_case(r: Random) -> Case:
    """`receive` of lanes that repeat themselves: all alike, alternating, one code or one metaframe again and again,
    framing of another length."""
    d = Drawn(r)
    bits = [regular_bits(r, d.plan.link, lane) for lane in range(d.plan.link.lanes)]
    if r.randrange(2):
        bits = [bits[0]] * len(bits)
    if r.randrange(3) == 0:
        noise(r, bits, r.randrange(len(bits)), d.plan.link)
    return Case(["receive", "p.plan"], receive_files(r, d, bits), d.wide)


def regular_bits(r: Random, link: Link, lane: int) -> str:
    """The bits of one lane, some ten metaframes of them."""
    length, count = link.metaframe, r.choice([4, 6, 7, 10, 12, 14]) * link.period
    idle = Word(CONTROL, fields.sealed([], fields.control_number(False, False, 0, True, 0xFFFF, 0, 0)))
    code, wrong = lanes.code(idle, False), "0" * CODE_BITS * 16
    if r.randrange(6) == 0:
        # The sixteenth wrong header of a block is in the last word of the six metaframes, or just not.
        return code * (6 * length - 16 - r.choice([0, 0, 1])) + wrong + code * 6 * length
    other = link._replace(metaframe=r.choice([length, length + 1, 2 * length, max(length - 1, 32)]))
    sent = lanes.lane_bits([idle] * (other.group * r.choice([6, 13])), other, lane)
    metaframe = "".join(lanes.code(Word(CONTROL, number), r.random() < 0.5) for number in repeated_metaframe(r, link))
    pattern = r.choice([
        "0", "1", "01", "0110", code, lanes.code(Word(CONTROL, lanes.SYNC), False), lanes.code(Word(DATA, r.getrandbits(64)), True),
        sent[:link.period], sent, sent, sent[:link.period * 5] + "0" * r.choice([1, 67, 2_000]), metaframe, metaframe, metaframe,
    ])
    return (pattern * (count // len(pattern) + 1))[:count]


def repeated_metaframe(r: Random, link: Link) -> list[int]:
    """A Sync, a state word or another word, and idles or Syncs, which the key does not follow."""
    second = r.choice([lanes.state_number(r.getrandbits(58)), lanes.SYNC, lanes.state_number(0)])
    return [lanes.SYNC, second] + [r.choice([lanes.SKIP, lanes.SKIP, lanes.SYNC])] * (link.metaframe - 2)


# ---- what no receiver can see

def mimic_case(r: Random) -> Case:
    """`link` with a schedule that makes other words of those that were sent: words that pass, framing if none is,
    lanes a metaframe apart."""
    d = Drawn(r)
    stream = payload_stream(d.source()).words
    link = d.plan.link
    rows: list[list] = []
    for _ in range(r.choice([1, 1, 2])):
        rows += r.choice(FORGERIES)(r, stream, link)
    if r.randrange(3) == 0:
        rows += drawn.one_bit(r, r.randrange(link.lanes), link, lane_length(d))
    skews = {row[1]: row for row in rows if row[0] == "skew"}
    d.add_rows("schedule", "s.csv", [row for row in rows if row[0] != "skew"] + list(skews.values()))
    return Case(["link", "p.plan"], d.all_files(), d.wide)


def flips_between(lane: int, at: int, sent: str, wanted: str) -> list[list]:
    """The rows that make wanted bits of the sent ones that stand at a bit of a lane."""
    return [["flip", lane, at + place] for place, (a, b) in enumerate(zip(sent, wanted)) if a != b]


def forged_words(r: Random, stream: Sequence[Word], link: Link) -> list[list]:
    """Words in place of others, as mutated words of the same number: the payload of a lane's bits changes if that of
    the word does."""
    rows = []
    wanted = list(stream)
    for _ in range(r.choice([1, 1, 3])):
        at = r.randrange(len(stream) // 2, len(stream))
        r.choice([change_fields, change_end, end_early, forged_data])(r, wanted, at)
    for slot, (old, new) in enumerate(zip(stream, wanted)):
        lane, number = slot % link.lanes, slot // link.lanes
        at = CODE_BITS * (number // link.rows * link.metaframe + 2 + link.skips + number % link.rows)
        rows += flips_between(lane, at, lanes.code(old, False), lanes.code(new, False))
    return rows


def forged_data(r: Random, words: list[Word], at: int) -> None:
    """A data word is another, and the control word after it has the CRC24 of that; or is as it was, if the data
    differ by a multiple of the polynomial."""
    at = next((place for place in range(at, len(words)) if words[place].kind == DATA), None)
    if at is not None:
        multiple = (1 << 24 | CRC24[1]) << r.randrange(40)
        words[at] = Word(DATA, words[at].number ^ r.choice([1, multiple, r.getrandbits(64)]))
        seal(words, next(place for place in range(at, len(words)) if words[place].kind == CONTROL))


def forged_lock(r: Random, stream: Sequence[Word], link: Link) -> list[list]:
    """Syncs a metaframe apart at another position than the sender's, with state words after them or not, if the
    sender's own are damaged or not."""
    lane = r.randrange(link.lanes)
    bits = lanes.lane_bits(stream, link, lane)
    position, count = r.randrange(3, link.metaframe - 1), r.choice([4, 4, 5, 6])
    first = r.choice([0, 0, 1])
    rows, state = [], r.getrandbits(58)
    for turn in range(first, min(first + count, len(bits) // link.period)):
        at = link.period * turn + CODE_BITS * position
        sync = lanes.code(Word(CONTROL, lanes.SYNC), r.random() < 0.5)
        second = r.choice([lanes.code(Word(CONTROL, lanes.state_number(state)), False)] * 3 + [""])
        rows += flips_between(lane, at, bits[at:at + 2 * CODE_BITS], sync + second)
        if turn >= first + 3:
            for _ in range(link.metaframe - 2):
                _, state = lanes.next_key(state)
    return rows + [["flip", lane, link.period * turn + 30] for turn in range(r.choice([0, 1, 9]))]


def forged_diagnostic(r: Random, stream: Sequence[Word], link: Link) -> list[list]:
    """A payload of a metaframe is another, often that of the Diagnostic word, which has the right CRC32 again."""
    lane, turn = r.randrange(link.lanes), r.randrange(4, len(stream) // link.group)
    place = r.choice([2, link.metaframe // 2, -1, -1])
    return forged_metaframe(stream, link, lane, turn, place, 1 << r.choice([63, 58, 40, 33]))


def forged_health(r: Random, stream: Sequence[Word], link: Link) -> list[list]:
    """A Diagnostic word tells that the lane or the interface is not well, and has the right CRC32."""
    lane, turn = r.randrange(link.lanes), r.randrange(4, len(stream) // link.group)
    return forged_metaframe(stream, link, lane, turn, -1, r.choice([1, 2, 3]) << 32)


def forged_metaframe(stream: Sequence[Word], link: Link, lane: int, turn: int, place: int, bits: int) -> list[list]:
    """Bits of the payload at a place of a metaframe are inverted, and its Diagnostic word has the right CRC32 again."""
    payload = lanes.striped(stream, link.lanes, lane)[turn * link.rows:(turn + 1) * link.rows]
    sent = [word.number for word in lanes.framed(payload, link, 0)]
    wanted = list(sent)
    wanted[place] ^= bits
    wanted[-1] += lanes.metaframe_crc(wanted) - fields.bits(wanted[-1], 31, 0)
    rows = []
    for position, (old, new) in enumerate(zip(sent, wanted)):
        at = link.period * turn + CODE_BITS * position
        rows += flips_between(lane, at, lanes.code(Word(DATA, old), False), lanes.code(Word(DATA, new), False))
    return rows


def apart(r: Random, stream: Sequence[Word], link: Link) -> list[list]:
    """Some lanes come whole metaframes later than others."""
    return [["skew", lane, r.choice([0, 1, 1, 2]) * link.period + r.randrange(60)] for lane in range(link.lanes)]


FORGERIES = (forged_words, forged_words, forged_words, forged_lock, forged_lock, forged_diagnostic, apart)


def forged_case(r: Random) -> Case:
    """The lanes of a stream that some damage makes others of which pass: other words, locks if none were, and Diagnostic words that
    are right and tell that something is not well."""
    d = Drawn(r)
    words, link = payload_stream(d.source()).words, d.plan.link
    rows: list[list] = []
    for _ in range(r.choice([1, 2, 3])):
        rows += r.choice([forged_words, forged_lock, forged_diagnostic, forged_health, forged_health])(r, words, link)
    bits = struck_by(rows, [lanes.lane_bits(words, link, lane) for lane in range(link.lanes)])
    return Case(["receive", "p.plan"], receive_files(r, d, bits), d.wide)


LANES = (
    receive_case, receive_case, regular_case, linked_case, linked_case, begun_again_case, begun_again_case, forged_case, forged_case,
)


# ---- listings

def list_case(r: Random) -> Case:
    """`list` of a words file or a lane, right or spoiled; a name that ends in `.words` makes it a words file."""
    name = r.choice(["x.words", "x.words", "x.lane.0", "x.words.0"])
    data = random_listings.words_data(r) if name == "x.words" else random_listings.lane_data(r)
    return Case(["list", name], {name: data} if r.randrange(20) else {})


def assemble_case(r: Random) -> Case:
    """`assemble` of a listing, right or spoiled."""
    return Case(["assemble", "x.txt"], {"x.txt": random_listings.text(r)} if r.randrange(30) else {})


# ---- two ends

def duplex_case(r: Random) -> Case:
    """`duplex`, with settings, plan and captures of both ends, one of them sometimes spoiled."""
    d = Drawn(r, lanes=(1, 1, 1, 2))
    d.rows += r.choice([[], [["flow", "none"], ["schedule", "none"]]])
    rows = [["plan", "p.plan"], ["delay", r.choice([1, 1, 2, 10, 60, 400, 4_096])], ["mark", r.choice([1, 1, 2, 3, 8, 16, 65_536])],
            ["slots", r.choice([1, 100, 600, 800, 800, 1_200])], ["out", "d"]]
    rows += [["drain", r.choice([1, 2, 2, 3, 4, 9, 1_024])]] if r.randrange(8) else []
    back = r.sample(d.plan.channels, r.randint(0, len(d.plan.channels)))
    files = {"b%d.pcap" % channel: drawn.capture(r, drawn.packets(r, 8)) for channel in back}
    rows += [["back", channel, "b%d.pcap" % channel] for channel in back]
    if r.randrange(16) == 0:
        rows.append(["back", r.choice([4, 65_535]), "b.pcap"])
    r.shuffle(rows)
    plan = d.spoil() if r.randrange(8) == 0 else d.all_files()
    files = {**plan, **files, "s.duplex": drawn.spoiled(r, rows) if r.randrange(6) == 0 else drawn.spelled(r, rows)}
    if r.randrange(12) == 0:
        name = r.choice(sorted(files))
        files[name] = r.choice([b"", drawn.spoiled_capture(r, drawn.packets(r))])
    return Case(["duplex", "s.duplex"], files, d.wide)


# ---- out-of-band status

def calendar_of(r: Random, d: Drawn) -> None:
    """A calendar of one or several blocks."""
    d.rows = [row for row in d.rows if row[0] != "entry"]
    d.rows += [["entry", r.choice(d.plan.channels)] for _ in range(r.choice([0, 1, 15, 16, 17, 63, 64, 65, 128, 150]))]
    d.plan = drawn.plan_of(drawn.spelled(Random(0), d.rows))


def oobwrite_case(r: Random) -> Case:
    """`oobwrite` of a calendar and local rows."""
    d = Drawn(r)
    calendar_of(r, d)
    if r.randrange(5):
        d.add_local(r.choice([20, 700]))
    return Case(["oobwrite", "p.plan"], d.spoil() if r.randrange(4) == 0 else d.all_files(), d.wide)


def oobread_case(r: Random) -> Case:
    """`oobread` of samples that `oobwrite` makes, with bits inverted, lost and put in, and of noise."""
    d = Drawn(r)
    calendar_of(r, d)
    samples = bytearray(oob.written(d.plan.entries, drawn.local_rows(r, d.plan.channels, 700)))
    for _ in range(r.choice([0, 0, 1, 2, 5])):
        at = r.randrange(len(samples) + 1)
        samples[at:at + r.choice([0, 1, 1, 2, 30])] = bytes(r.randrange(8) for _ in range(r.choice([0, 1, 1, 2])))
    if r.randrange(6) == 0:
        # The first sample has its clock at 1, or the first frame is not whole.
        del samples[:r.choice([1, 1, 3, 20])]
    if r.randrange(8) == 0:
        samples = bytearray(r.randrange(8) for _ in range(r.choice([0, 1, 300])))
    if r.randrange(12) == 0:
        samples.insert(r.randrange(len(samples) + 1), r.choice([8, 9, 255]))
    d.rows += [["oob", "s.oob"]] if r.randrange(16) else []
    d.files["s.oob"] = bytes(samples)
    found = d.all_files()
    if r.randrange(10) == 0:
        found = r.choice([{**found, "p.plan": drawn.spoiled_plan(r, d.rows)}, {"p.plan": found["p.plan"]}])
    return Case(["oobread", "p.plan"], found, d.wide)


# ---- what is sent again

def event_rows(r: Random) -> list[list]:
    """Events that bring some pieces over, with losses and repetitions, few or many at once."""
    if r.randrange(6) == 0:
        # A way is full, or just not.
        count = r.choice([1_021, 1_022, 1_023, 1_024])
        return r.choice([
            [["send", 2], ["repeat", count], ["repeat", 1], ["send", 1], ["take", 1_023], ["take", r.randint(1, 2)]],
            [["send", 3], ["take", 2], ["repeatback", count], ["take", 1], ["takeback", 1_023], ["takeback", r.randint(1, 2)]],
        ])
    names = ["send", "take", "takeback"] * 3 + ["rewind", "lose", "repeat", "loseback", "repeatback"]
    if r.randrange(3) == 0:
        most = r.choice([60, 300, 1_100])
        return [[r.choice(names), r.randint(1, most)] for _ in range(r.choice([3, 12, 30]))]
    return [[name, r.choice([1, 1, 2, 7, 40])] for name in r.choices(names, k=r.choice([1, 20, 60]))]


def resend_case(r: Random) -> Case:
    """`resend` of a plan, a wide one at times, and events."""
    d = Drawn(r, may_be_wide=r.randrange(6) == 0)
    if r.randrange(4) == 0:
        d.add_flow()
    if r.randrange(4) == 0:
        d.add_local()
    if r.randrange(2):
        d.rows.append(["window", r.choice([1, 2, 8, 64, 255])])
    rows = event_rows(r)
    if r.randrange(16):
        d.add_rows("events", "e.csv", rows)
    found = d.spoil() if r.randrange(5) == 0 else d.all_files()
    if "e.csv" in found and r.randrange(6) == 0:
        # All events together are one more than may be, or as many.
        most = ["send", MOST_EVENTS + r.choice([1, 1, 1, 0]) - sum(row[1] for row in rows)]
        found["e.csv"] = drawn.spelled(r, rows + [most]) if r.randrange(2) else drawn.spoiled(r, rows)
    return Case(["resend", "p.plan"], found, d.wide)


# ---- kinds

KINDS: dict[str, Callable[[Random], Case]] = {
    "capture": capture_case, "burst": plan_case("burst"), "join": join_case, "send": plan_case("send"), "receive": receive_case,
    "regular": regular_case, "link": link_case, "mimic": mimic_case, "channels": channels_case, "words": words_case,
    "generate": generate_case, "list": list_case, "assemble": assemble_case, "duplex": duplex_case, "oobwrite": oobwrite_case,
    "oobread": oobread_case, "resend": resend_case, "stripe": stripe_case, "gather": lanes_case("gather"),
    "inspect": lanes_case("inspect"), "damage": damage_case, "check": check_case,
}
# Kinds that have large cases, and kinds that have wide plans.
LARGE = ("generate", "channels")
WIDE = (
    "burst", "join", "send", "receive", "regular", "link", "mimic", "channels", "words", "duplex", "oobwrite", "oobread", "resend",
    "stripe", "gather", "inspect", "damage", "check",
)


def make(kind: str, seed: int) -> Case:
    """The case of a kind and a seed."""
    return KINDS[kind](Random("%s %d" % (kind, seed)))
