"""Tries the calls of the C library on random links beside the model of model/: each event of a receiver in its order and at its byte,
each byte of a transmitter, refused memory, and random calls, wrong ones among them.

    python3 live.py PROGRAM DRIVER [--plain DRIVER] [--threads DRIVER] [--cases N] [--sequences N] [--first]

DRIVER makes the calls of a script (live/driver.c), and live_model.py says what each has to give. PROGRAM makes the lanes of links,
and receives, gathers and checks some. The plain driver runs under valgrind, if it is here; the one of --threads, which has a
sanitizer for them, makes two scripts at once, as the plain one does under valgrind. With --first nothing is tried after the first
failure, and nothing in the last two ways.
"""

import argparse
import bisect
import os
import sys
import tempfile
from random import Random

import lib.live_model as model
from lib.live_bench import Bench, content, text_of, write
from lib.live_calls import NO_HANDLE, RANDOM, Feeding, Sending, all_on, flow_words, sequence, sequence_script
from lib.live_links import chosen_plan, generated_link, made_link
from lib.machine import has_tool
from lib.tally import Tally
import fields
import pcap
import random_inputs as drawn
import words_file
from files import Refusal
from plan import plan_of

SMALL = (26, 1564, 29, 267, 157, 2733, 264, 395, 630, 868, 1436, 1454, 1692, 1815, 2147, 2636)  # cases of `generate` with short lanes
DAMAGED = ((2, 78), (1, 87), (5, 84))  # lanes and seeds of links with spans and drops, for random calls
LANES = (1, 2, 64, 3, 1, 5, 8, 2, 13, 4, 24, 1, 40, 7, 3, 64, 16, 2)


# ---- receivers

def pieces(r, link, handle):
    """Calls that feed all lanes in random pieces and orders, with what each gives; of `rall` the rounds after it."""
    feeding, calls, most = Feeding(link), [], r.choice([9, 200, 1_000, 6_000] if link.most * len(link.data) < 20_000 else [700, 6_000])
    while not all(feeding.over):
        for lane in r.sample(range(len(link.data)), len(link.data)):
            if feeding.over[lane] or r.randrange(5) == 0:
                continue
            count = r.randint(0, most)
            calls.append(("rfeed %d %d %d %d" % (handle, lane, lane + 1, count), "0 %d" % feeding.feed(lane, count)))
            if feeding.fed[lane] == len(link.data[lane]) and r.randrange(2):
                calls.append(("rfin %d %d" % (handle, lane), "0"))
                feeding.over[lane] = True
        feeding.settle()
        calls.append(("rall %d" % handle, feeding.rounds()))
        for lane in r.sample(range(len(link.data)), r.choice([0, 0, 1])):
            calls += [("rreport %d %d" % (handle, lane), feeding.report(lane)), ("rstate %d %d" % (handle, lane), feeding.state(lane))]
    return calls


def split_events(found, at):
    """The lines of events from one line on, and the number of the line after the one that ends them."""
    end = next((n for n in range(at, len(found)) if " " not in found[n]), len(found))
    return found[at:end], end + 1


def receive_looks(bench, r, link, marks, lines, count):
    """Some numbers of bytes: the packets and the spans that were told by then are those of `receive` of so many bytes of each lane."""
    wrong = ""
    for rounds in looks(r, link, marks)[:count]:
        with tempfile.TemporaryDirectory(dir=bench.folder) as folder:
            rows = [row for row in rows_of_text(link.text) if row[0] not in ("schedule", "out")]
            write(folder, "p.plan", text_of(rows + [("out", "o")]))
            for lane, data in enumerate(link.data):
                write(folder, "o.lane.%d" % lane, data[:rounds])
            status, told = bench.program(["receive", "p.plan"], folder)
            if status != 0:
                return "receive of %d bytes: status %d, %s" % (rounds, status, told[:200])
            mine = [line.split() for line in lines[:bisect.bisect_right(marks, rounds)]]
            wrong = wrong or files_differ(folder, link.plan, mine, rounds)
        bench.seen["receive looks"] += 1
    return wrong


def rows_of_text(text):
    return [line.split(",") for line in text.decode().split()]


def files_differ(folder, plan, events, rounds):
    """How the captures and the closed spans differ from these events."""
    for channel in plan.channels:
        packets = [bytes.fromhex(words[-1]) if len(words) > 14 else b"" for words in events if words[1] == "1" and words[2] == str(channel)]
        if content(folder, "o.%d.pcap" % channel) != pcap.written(packets, plan.link_type):
            return "the packets of channel %d after %d bytes" % (channel, rounds)
    wanted = [line for line in content(folder, "o.spans.csv").decode().splitlines()[1:] if line.split(",")[2] != "-"]
    spans = [words for words in events if words[1] == "3"]
    found = [",".join(place_columns(words[5:8]) + place_columns(words[8:11]) + [model.FAULTS[int(words[4])]]) for words in spans]
    return "" if found == wanted else "the spans after %d bytes: %r, and not %r" % (rounds, found, wanted)


def place_columns(words):
    return [words[2], words[1]] if words[0] == "1" else ["-", "-"]


def looks(r, link, marks):
    """Numbers of bytes just before and at some events, and others; each lane has so many."""
    at = [mark for mark in marks if mark <= link.least]
    found = []
    for _ in range(4):
        mark = r.choice(at) if at and r.randrange(5) else r.randint(0, link.least)
        found += [mark, max(0, mark - 1)]
    return found


def receiver_case(bench, r, what, link, refuses):
    """A byte of each lane in turn, and then random pieces, in two receivers of one link."""
    calls = pieces(r, link, 1)
    watch = " ".join(map(str, link.watched))
    script = link.loads() + ["%srnew 0 0" % ("!! " if refuses else ""), "rwatch 0 " + watch, "rstep 0 1 %d" % len(link.data)]
    script += ["rreport 0 %d" % lane for lane in range(len(link.data))] + ["rfree 0", "rnew 1 0", "rwatch 1 " + watch]
    said, wrong = bench.driven([script + [call for call, _ in calls] + ["rfree 1"]], link.folder)
    found, of_memory = bench.answers(said[0])
    bench.count(what, wrong or of_memory or receiver_differs(bench, r, link, found, calls))


def receiver_differs(bench, r, link, found, calls):
    """What is wrong with the answers of a receiver's case."""
    if found[:1] != ["0 1 0 0 0"]:
        return "new: %r" % found[:1]
    stepped, at = split_events(found, 1)
    marks, lines = [int(line.split(" ", 1)[0]) for line in stepped], [line.split(" ", 1)[1] for line in stepped]
    wanted = link.lines()
    bench.seen.update(line.split()[1] + ("/" + line.split()[4] if line.split()[1] in "23" else "") for line in wanted)
    if lines != wanted:
        return "events in step: " + first_difference(lines, wanted)
    for rounds in looks(r, link, marks)[:2 + (link.most * len(link.data) < 40_000) * 6]:
        told = link.lines(rounds)
        bench.seen["looks"] += 1
        if told != lines[:bisect.bisect_right(marks, rounds)]:
            return "events after %d bytes: %s" % (rounds, first_difference(lines[:bisect.bisect_right(marks, rounds)], told))
    whole = Feeding(link)
    whole.used = [len(data) for data in link.data]
    reports = [whole.report(lane) for lane in range(len(link.data))]
    if found[at:at + len(reports)] != reports:
        return "reports: %r, and not %r" % (found[at:at + len(reports)], reports)
    at += len(reports)
    if found[at:at + 2] != ["0 0", "0 1 0 0 0"]:
        return "free and new: %r" % found[at:at + 2]
    return pieces_differ(link, found, at + 2, calls, marks, wanted) or receive_looks(bench, r, link, marks, lines, 2)


def pieces_differ(link, found, at, calls, marks, wanted):
    """What is wrong with the answers to random pieces."""
    count = 0
    for call, want in calls:
        if not call.startswith("rall"):
            if at >= len(found) or found[at] != want:
                return "%s: %r, and not %r" % (call, found[at:at + 1], want)
            at += 1
            continue
        lines, at = split_events(found, at)
        lines = [line.split(" ", 1)[1] for line in lines]
        if lines != wanted[count:count + len(lines)]:
            return "events in pieces: " + first_difference(lines, wanted[count:count + len(lines)])
        count += len(lines)
        if want < link.least and count != bisect.bisect_right(marks, want):
            return "%d events after %d bytes of each lane in pieces, and %d in step" % (count, want, bisect.bisect_right(marks, want))
    return "" if count == len(wanted) else "%d events in pieces, and not %d" % (count, len(wanted))


def first_difference(found, wanted):
    at = next((n for n, (one, other) in enumerate(zip(found, wanted)) if one != other), min(len(found), len(wanted)))
    first = [[line[:90] for line in lines[at:at + 1]] for lines in (found, wanted)]
    return "number %d of %d, %r, and not %r of %d" % (at, len(found), first[0], first[1], len(wanted))


# ---- transmitters

def live_turn(r, sending, sizes, refuses):
    """A few calls, words of the far end, and then bytes of each lane but one now and then."""
    plan = sending.plan
    for _ in range(r.choice([0, 1, 2, 5, 12])):
        kind = r.randrange(10)
        if kind < 7:
            longest = min(plan.settings.max_packet, r.choice([20, 100, 300, 1_000]))
            sending.packet(r, r.choice(plan.channels), r.randint(1, longest), r.choice(["", "! ", "!! "]) if refuses else "")
        elif kind == 7:
            sending.local(r.choice(plan.channels), r.choice([0, 1, 0, 2, 256, 0xFFFFFFFF]))
        elif kind == 8:
            sending.sent(r.choice(plan.channels))
        else:
            sending.slots()
    for word in flow_words(r, plan) if r.randrange(2) else []:
        sending.flow(word)
    for lane in r.sample(range(plan.link.lanes), plan.link.lanes):
        if r.randrange(9):
            sending.take(lane, r.randint(0, r.choice(sizes)))


def sent_live(r, plan, refuses):
    """The calls of a transmitter from its beginning to its end."""
    sending = Sending(plan, 0, 1)
    sending.put(("!! " if refuses else "") + "tnew 0 0", "0 1 0 0 0")
    words = plan.link.group * (plan.shape.warmup + r.choice([0, 1, 2, 4])) + r.randrange(plan.link.group)
    sizes = r.choice([[20, 200], [200, 1_000], [10_000], [8, 300, 5_000]])
    while sending.sender.slots() < words:
        live_turn(r, sending, sizes, refuses)
    for word in all_on(r, plan) * (r.randrange(3) > 0):
        sending.flow(word)
    sending.finish()
    sending.finish()
    turns = 0
    while sum([sending.take(lane, r.choice([1_000, 5_000])) for lane in range(plan.link.lanes)]) or not sending.sender.ended:
        turns += 1
        if turns % 4 == 1:
            sending.packet(r, plan.channels[0], 5)
            sending.flow(0)
            sending.local(plan.channels[0], 1)
            sending.sent(r.choice(plan.channels))
    for channel in plan.channels:
        sending.sent(channel)
    sending.slots()
    sending.put("tfree 0", "0 0")
    return sending


def transmitter_case(bench, r, what, lanes, folder, refuses):
    """A transmitter beside the model, its words as `gather` has them, and the rules as `check` judges them."""
    rows, channels = chosen_plan(r, lanes)
    rows += [("channel", channel) for channel in channels] + [("max_packet", r.choice([300, 1_000, 262_144]))]
    plan = plan_of(text_of(rows))
    sending = sent_live(r, plan, refuses)
    write(folder, "p.plan", text_of(rows + [("flow", "f.csv")]))
    write(folder, "random", RANDOM)
    said, wrong = bench.driven([["load 0 p.plan", "load 1 random"] + [call for call, _ in sending.calls]], folder)
    bench.judge(what, said[0], wrong, sending.calls)
    bench.seen["words sent"] += sending.sender.slots()
    bench.seen["calls of transmitters"] += len(sending.calls)
    bench.count(what + ", its words", words_differ(bench, plan, sending.sender, folder))


def words_differ(bench, plan, sender, folder):
    """What `gather` and `check` find wrong with lanes that were sent live."""
    for lane in range(plan.link.lanes):
        write(folder, "o.lane.%d" % lane, sender.lane(lane, 0, sender.taken[lane]))
    hidden = 3 * plan.link.group  # a lock is declared at the fourth Sync
    write(folder, "f.csv", text_of([(max(0, row.slot - hidden), "%016X" % row.number) for row in sender.flow_rows]))
    gathered, checked = bench.program(["gather", "p.plan"], folder), bench.program(["check", "p.plan"], folder)
    if gathered[0] != 0 or content(folder, "o.words") != words_file.file_of_words(sender.stream.words[hidden:]):
        return "gather: status %d, or other words" % gathered[0]
    bench.seen["bursts sent"] += sum(kind == fields.CONTROL and fields.begins_burst(number) for kind, number in sender.stream.words)
    return "" if checked[0] == 0 and checked[1].splitlines()[1:2] == ["faults 0"] else "check: %r" % (checked,)


# ---- refused plans, and random calls

def is_prepared(bench, link):
    """Adds to a link its events and at which byte of each lane each comes."""
    write(link.folder, "random", RANDOM)
    said, wrong = bench.driven([link.loads() + ["rnew 0 0", "rstep 0 1 %d" % len(link.data), "rfree 0"]], link.folder)
    stepped, _ = split_events(bench.answers(said[0])[0], 1)
    link.events = model.events_of([lane.shown(8 * len(data)) for lane, data in zip(link.lanes, link.data)], link.plan, True)
    link.marks = [int(line.split()[0]) for line in stepped]
    if not wrong and [line.split()[1:13] for line in stepped] != [model.event_line(event).split() for event in link.events]:
        wrong = "other events"
    bench.count("a link for random calls", wrong)
    return not wrong


def plans_differ(bench, r, count, folder):
    """Plans, most of them refused: the cause, the row and the key, from both calls."""
    script, calls = [], []
    for number in range(count):
        rows, channels = chosen_plan(r, r.choice(LANES))
        text = drawn.spoiled_plan(r, [list(row) for row in rows] + [["channel", channel] for channel in channels] + [["max_packet", 500]])
        try:
            plan_of(text)
            want = "0 1 0 0 0"
        except Refusal as why:
            want = "2 0 %d %d %d" % model.refusal(str(why))
            bench.seen["plans refused"] += 1
        script.append("hold 0 " + text.hex())
        for kind in "rt":
            script += ["%snew 0 0" % kind, "%sfree 0" % kind]
            calls += [("new of %r" % text, want), ("free", "0 0" if want[0] == "0" else "%d 0" % NO_HANDLE[kind])]
    said, wrong = bench.driven([script], folder)
    bench.judge("plans", said[0], wrong, calls)


# ---- all parts

def link_of_case(bench, r, at, folder):
    """What case number `at` is called, and its link: one of a small case of `generate` now and then."""
    number, rest = divmod(at, 6)
    if rest == 5 and number < len(SMALL):
        return "generate %d" % SMALL[number], generated_link(bench, SMALL[number], folder)
    return "link %d" % at, made_link(bench, r, LANES[at % len(LANES)], folder)


def try_links(bench, count):
    for at in range(count):
        r = Random(1_000_003 * at + 1)
        with tempfile.TemporaryDirectory(dir=bench.folder) as folder:
            what, link = link_of_case(bench, r, at, folder)
            if link is not None:
                receiver_case(bench, r, what, link, at % 4 == 0)


def try_senders(bench, count):
    for at in range(count):
        r = Random(1_000_003 * at + 2)
        with tempfile.TemporaryDirectory(dir=bench.folder) as folder:
            transmitter_case(bench, r, "transmitter %d" % at, LANES[at % len(LANES)], folder, at % 3 == 0)


def try_sequences(bench, count):
    """Scripts of random calls; and two under other tools."""
    links = []
    for lanes, seed in DAMAGED:
        folder = os.path.join(bench.folder, "links.%d" % lanes)
        os.mkdir(folder)
        links.append(made_link(bench, Random(seed), lanes, folder))
    if not all([link is not None and is_prepared(bench, link) for link in links]):
        bench.tally.give_up("links for random calls", "not all are made, and the rest is not tried")
    for at in range(count):
        calls = sequence(bench, Random(1_000_003 * at + 3), links[at % len(links)], 400)
        said, wrong = bench.driven([sequence_script(links[at % len(links)], calls)], links[at % len(links)].folder)
        bench.judge("random calls %d" % at, said[0], wrong, calls)
        bench.seen["random calls"] += len(calls)
    if not bench.given.first:
        try_tools(bench, links[0])


def try_tools(bench, link):
    """Two scripts: one alone under memcheck, and both at once, in threads, under tools that see races."""
    plain = bench.given.plain
    if has_tool("valgrind"):
        valgrind = ("valgrind", "-q", "--error-exitcode=9")
        try_at_once(bench, "memcheck", link, 1, plain, valgrind + ("--leak-check=full",), ("-u",))
        try_at_once(bench, "helgrind", link, 2, plain, valgrind + ("--tool=helgrind",))
    else:
        bench.tally.not_tried("valgrind", "valgrind", "calls under memcheck, and two threads under helgrind")
    if bench.given.threads:
        try_at_once(bench, "two threads", link, 2, bench.given.threads)


def try_at_once(bench, what, link, count, *how):
    """Some scripts in one run of a driver."""
    many = [sequence(bench, Random(number), link, 700) for number in range(count)]
    said, wrong = bench.driven([sequence_script(link, calls) for calls in many], link.folder, *how)
    for number, calls in enumerate(many):
        bench.judge("%s, script %d" % (what, number), said[number], wrong, calls)


def try_plans(bench, count):
    with tempfile.TemporaryDirectory(dir=bench.folder) as folder:
        plans_differ(bench, Random(4), count, folder)


# What has to have come, by the names under which it is counted: kinds of events, and those of drops and spans with their reasons.
WANTED = ["1", "4", "5", "3/0", "3/5", "looks", "receive looks", "bursts sent", "plans refused"]
ALL_WANTED = ["2/%d" % why for why in range(8)] + ["3/%d" % why for why in range(5)]
MANY = 24  # cases that have all of these
CALLS = ["rnew", "tnew", "dnew", "tpacket", "dflip", "ddark"]


def numbers(bench):
    """What came in all; whatever was never tried fails."""
    seen, refused = bench.seen, bench.refused
    missing = [name for name in WANTED + ALL_WANTED * (bench.given.cases >= MANY) if not seen[name]]
    missing += ["refused " + call for call in CALLS if not refused[call]]
    bench.tally.count("what came", "nothing of " + ", ".join(missing) if missing else "")
    events = sum(count for name, count in seen.items() if name[0] in "12345")
    print("live: %d events, %d packets among them, %d looks and %d by receive" % (events, seen["1"], seen["looks"], seen["receive looks"]))
    sent = (seen["words sent"], seen["bursts sent"], seen["calls of transmitters"])
    print("live: %d words and %d bursts of transmitters in %d calls" % sent)
    without = ", ".join("%s %d" % (call, refused[call]) for call in CALLS)
    print("live: %d random calls; without memory: %s" % (seen["random calls"], without))


def main():
    parser = argparse.ArgumentParser()
    parser.add_argument("program", type=os.path.abspath)
    parser.add_argument("driver", type=os.path.abspath)
    parser.add_argument("--plain", type=os.path.abspath)
    parser.add_argument("--threads", type=os.path.abspath)
    parser.add_argument("--cases", type=int, default=MANY)
    parser.add_argument("--sequences", type=int, default=24)
    parser.add_argument("--first", action="store_true")
    given, tally = parser.parse_args(), Tally("live")
    with tempfile.TemporaryDirectory() as folder:
        bench = Bench(given, tally, folder)
        try_plans(bench, 40)
        try_sequences(bench, given.sequences)
        try_links(bench, given.cases)
        try_senders(bench, given.cases)
        numbers(bench)
    return tally.end()


if __name__ == "__main__":
    sys.exit(main())
