"""Gives the words of a plan's words file to a checker, each row of the plan's flow file before the word that it counts for, and prints the
faults as the table of `check`. Each fault has to come with the word that shows it. A second checker gets many words at once.

    checked.py MODULE LIBRARY PLAN
"""

import csv
import sys

sys.path.insert(0, sys.argv[1])
import interlaken as i


def crc24(number):
    crc = 0xFFFFFF
    for n in range(63, -1, -1):
        crc = crc << 1 & 0xFFFFFF ^ (0x328B63 if (crc >> 23 ^ number >> n) & 1 else 0)
    return crc ^ 0xFFFFFF


def rows_of(name):
    with open(name, newline="") as file:
        return [row for row in csv.reader(file) if row]


def rises(faults, number):
    """The row of `empty` of the word before, and then the word's own rows in the order of the rules."""
    own = faults[1:] if faults and faults[0].rule is i.Rule.EMPTY else faults
    order = [fault.rule for fault in own]
    late = all(fault.word == number - 1 for fault in faults[: len(faults) - len(own)])
    return late and order == sorted(set(order)) and all(fault.word == number and fault.rule is not i.Rule.EMPTY for fault in own)


def heard_at(word):
    """The word of a flow row as it is given. The checksum of a verified word is not looked at: a row with a wrong one is not a control word."""
    return word if crc24(word >> 24 << 24) == word & 0xFFFFFF else 0


def faults_of_many(checker, words, rows):
    """The faults of words that are given many at once, up to the next row of flow control."""
    at, faults, ends = 0, [], sorted({slot for slot, _ in rows if slot < len(words)} | {len(words)})
    while at < len(words):
        for _, word in (row for row in rows if row[0] == at):
            checker.flow(heard_at(word))
        end = next(slot for slot in ends if slot > at)
        while at < end:
            at += checker.words(words[at : min(end, at + 1 + at % 77)])
            faults += checker.faults()
    return faults


plan = {row[0]: row[1] for row in rows_of(sys.argv[3])}
data = open(plan["out"] + ".words", "rb").read()
words = [(data[at], int.from_bytes(data[at + 1 : at + 9], "big")) for at in range(0, len(data), 9)]
heard = [(int(slot), int(word, 16)) for slot, word in (rows_of(plan["flow"]) if "flow" in plan else [])]
rows, found = list(heard), []
with i.Checker(open(sys.argv[3], "rb").read(), sys.argv[2]) as checker:
    for number, (kind, word) in enumerate(words):
        while heard and heard[0][0] == number:
            checker.flow(heard_at(heard.pop(0)[1]))
        checker.word(kind, word)
        faults = list(checker.faults())
        if not rises(faults, number):
            print("word %d: %s" % (number, faults))
        found += faults
    checker.finish()
    if checker.next() is not None:
        print("a fault at the end")
with i.Checker(open(sys.argv[3], "rb").read(), sys.argv[2]) as checker:
    if faults_of_many(checker, words, rows) != found:
        print("many words at once have other faults")
print("word,rule,channel")
for fault in sorted(found, key=lambda fault: (fault.word, fault.rule)):
    print("%d,%s,%s" % (fault.word, fault.rule.name.lower(), "-" if fault.channel is None else fault.channel))
