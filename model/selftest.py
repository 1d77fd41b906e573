"""Worked examples of the model, one or two small ones for each definition, and some laws: `python3 model/selftest.py`."""

import os
import tempfile
import unittest
from collections import Counter
from random import Random

import accidents
import cases
import checksum
import csv_rows
import duplex
import epochs
import events
import fields
import flow
import inputs
import interlaken
import lanes
import listing
import locks
import oob
import pcap
import plan
import random_inputs
import random_listings
import reassembly
import resend
import rules
import spans
import stream
import texts
import words_file
from fields import BAD, CONTROL, DATA, Word
from files import Refusal
from flow import FlowRow, LocalRow
from link import Link, Shape

# A burst word of channel 1 with SOP after an idle, and an idle, both with their calendar all on.
BURST, IDLE = 0xE1FFFF01004EAC73, 0x81FFFF0000188177
LINK = Link(lanes=1, metaframe=32, skips=1, deskew=7)
SHAPE = Shape(group=28, warmup=4, burst_max=256, burst_short=64, burst_min=0)


def source(*packets, shape=SHAPE, **rows):
    """A source of channels 1 and 2 with these packets."""
    return stream.Source(shape, [1, 2], [1, 2], packets, **rows)


def words_of(*packets, **rows):
    """The payload stream of these packets."""
    return stream.payload_stream(source(*packets, **rows)).words


def outcome_of(words, channels=(1, 2), longest=262_144):
    """What the words of a words file come to."""
    return reassembly.reassembled([epochs.epoch_of_words(words)], reassembly.Settings(channels, longest, False))


def sealed(words):
    """The same words, each control word with its right CRC24."""
    found, data = [], []
    for kind, number in words:
        found.append(Word(kind, fields.sealed(data, number) if kind == CONTROL else number))
        data = [] if kind == CONTROL else [*data, number]
    return found


def refusal(read, *arguments):
    """Why a reader refuses its arguments."""
    try:
        read(*arguments)
    except Refusal as why:
        return str(why)
    return None


class Words(unittest.TestCase):
    def test_control_fields(self):
        self.assertTrue(fields.is_control_word(BURST) and fields.begins_burst(BURST))
        self.assertTrue(fields.has_sop(BURST) and fields.has_reset(BURST))
        self.assertEqual((fields.end_format(BURST), fields.flow_bits(BURST), fields.crc_field(BURST)), (0, 0xFFFF, 0x4EAC73))
        self.assertEqual(fields.control_number(True, True, 0, True, 0xFFFF, 1, 0, 0x4EAC73), BURST)
        self.assertFalse(fields.is_control_word(BURST | 0b0010 << 57) or fields.is_control_word(BURST & ~(1 << 63)))

    def test_channel_number(self):
        number = fields.control_number(True, True, 0, True, 0xFFFF, 5, 1)
        self.assertEqual((fields.channel_number(number, False), fields.channel_number(number, True)), (5, 261))

    def test_end_formats(self):
        self.assertEqual([fields.end_of_bytes(length) for length in (44, 8, 1)], [0b1100, 0b1000, 0b1001])
        self.assertEqual([fields.valid_bytes(end) for end in (0b1100, 0b1000, 0b1001)], [4, 8, 1])

    def test_checksum(self):
        # A register of ones takes a 0: it is shifted, and the polynomial xored in.
        self.assertEqual(checksum.checksum(4, 3, [0]), 0b1111 ^ (0b1110 ^ 0b0011))
        bits = [int(bit) for bit in format(IDLE >> 24 << 24, "064b")]
        self.assertEqual(checksum.checksum(*checksum.CRC24, bits), 0x188177)
        self.assertEqual(checksum.crc24([IDLE >> 24 << 24]), 0x188177)

    def test_sealed(self):
        self.assertTrue(fields.is_right([], IDLE) and fields.is_right([], BURST))
        self.assertFalse(fields.is_right([7], IDLE))
        self.assertTrue(fields.is_right([7], fields.sealed([7], IDLE)))

    def test_hexadecimal_digits(self):
        self.assertEqual(checksum.hex_digits(0xABC, 4), "0ABC")


class SentStreams(unittest.TestCase):
    def test_chunks(self):
        self.assertEqual([len(chunk.data) for chunk in stream.cut(bytes(300), SHAPE)], [256, 44])
        self.assertEqual([len(chunk.data) for chunk in stream.cut(bytes(300), SHAPE._replace(burst_min=64))], [192, 108])
        self.assertEqual([len(chunk.data) for chunk in stream.cut(bytes(320), SHAPE._replace(burst_min=64))], [256, 64])

    def test_data_words(self):
        self.assertEqual(stream.data_words(bytes(range(1, 10))), [0x0102030405060708, 0x0900000000000000])

    def test_incoming_calendar(self):
        calendar = flow.Incoming([1, 2])
        self.assertEqual(calendar.take(0x81BFFF00004B8D9D), [])
        self.assertEqual((calendar.is_on(1), calendar.is_on(2)), (True, False))
        calendar.take(0)
        self.assertFalse(calendar.is_on(2))
        self.assertEqual(calendar.take(IDLE), [(1, 2)])

    def test_words_without_a_reset_word_carry_nothing(self):
        calendar = flow.Incoming([1, 2])
        off = fields.sealed([], fields.control_number(False, False, 0, False, 0, 0, 0))
        calendar.take(off)
        self.assertTrue(calendar.is_on(1))
        # After a reset word the next one carries the entries from 16 on, of which there are none.
        calendar.take(IDLE)
        calendar.take(off)
        self.assertTrue(calendar.is_on(1))

    def test_outgoing_calendar(self):
        calendar = flow.Outgoing(list(range(20)))
        calendar.take(LocalRow(0, 17, False))
        self.assertEqual([calendar.flow_of(number) for number in range(3)],
                         [(True, 0xFFFF), (False, 0b1011_1111_1111_1111), (True, 0xFFFF)])

    def test_payload_stream(self):
        words = words_of((1, bytes(300)), shape=SHAPE._replace(group=56))
        bursts = [slot for slot, (kind, number) in enumerate(words) if kind == CONTROL and fields.begins_burst(number)]
        # The warm-up, a burst of 32 words, one of 6, and the end word: the finish slot, and a whole group after its own.
        self.assertEqual((bursts, len(words)), ([224, 257], 56 * 6))
        self.assertEqual([words[slot].kind for slot in (225, 256, 257, 263, 264)], [DATA, DATA, CONTROL, DATA, CONTROL])
        self.assertEqual(fields.end_format(words[264].number), 0b1100)

    def test_bursts_stand_apart(self):
        words = words_of((1, b"x"), (2, b"y"))
        bursts = [slot for slot, (kind, number) in enumerate(words) if kind == CONTROL and fields.begins_burst(number)]
        self.assertEqual(bursts, [112, 121])

    def test_the_least_key_goes_first(self):
        turned = [FlowRow(0, 0x81BFFF00004B8D9D), FlowRow(112, IDLE)]
        words = words_of((2, bytes(8)), (1, bytes(300)), flow=turned)
        channels = [fields.channel_field(number) for kind, number in words if kind == CONTROL and fields.begins_burst(number)]
        # Channel 2 became on in slot 112, before channel 1 has its first burst, and so it comes before the second.
        self.assertEqual(channels, [1, 2, 1])

    def test_held(self):
        made = stream.payload_stream(source((1, b"x"), (2, b"y"), flow=[FlowRow(0, 0x81BFFF00004B8D9D)]))
        self.assertEqual((made.left, made.finish), ([2], 114))

    def test_listed_packets(self):
        words = words_of((1, bytes(300)), (1, bytes(8)))
        self.assertEqual(stream.listed_packets(words), [(1, 0, 112, 152), (1, 1, 154, 156)])
        self.assertEqual(stream.listed_packets(words[:155]), [(1, 0, 112, 152), (1, 1, 154, None)])


class Lanes(unittest.TestCase):
    def test_striping(self):
        self.assertEqual(lanes.striped("abcdefgh", 3, 1), "beh")

    def test_framing(self):
        words = lanes.framed([Word(CONTROL, IDLE)] * 28, LINK, 5)
        self.assertEqual([word.number for word in words[:3]], [lanes.SYNC, 0b001010 << 58 | 5, lanes.SKIP])
        self.assertEqual(len(words), 32)
        self.assertEqual(words[-1].number >> 32, 0b011001 << 26 | 3)
        self.assertTrue(lanes.is_right_diagnostic(words))
        self.assertFalse(lanes.is_right_diagnostic([*words[:9], Word(CONTROL, IDLE ^ 1), *words[10:]]))
        self.assertFalse(lanes.is_right_diagnostic([*words[:9], Word(BAD, IDLE), *words[10:]]))

    def test_key(self):
        state, first = lanes.first_state(3), lanes.first_state(3)
        bits = []
        for _ in range(64):
            bits.append(state >> 38 & 1 ^ state >> 57 & 1)
            state = (state << 1 | bits[-1]) & lanes.ONES_58
        self.assertEqual(lanes.next_key(first), (int("".join(map(str, bits)), 2), state))

    def test_codes(self):
        self.assertEqual(lanes.code(Word(DATA, 1), False), "001" + "0" * 63 + "1")
        self.assertEqual(lanes.code(Word(CONTROL, 1), True), "110" + "1" * 63 + "0")
        self.assertEqual(lanes.meant("110" + "1" * 63 + "0"), (CONTROL, 1))
        self.assertEqual(lanes.meant("111" + "1" * 63 + "0").kind, BAD)

    def test_inversion(self):
        many, few = lanes.ONES_64, 0
        self.assertEqual([lanes.goes_inverted(payload, disparity) for payload in (many, few) for disparity in (0, -1)],
                         [True, False, False, True])

    def test_bits_and_files(self):
        self.assertEqual(lanes.file_of_bits("1000000001"), b"\x80\x40")
        self.assertEqual(lanes.bits_of_file(b"\x80\x40"), "1000000001000000")
        self.assertEqual(lanes.file_of_bits(""), b"")

    def test_damage(self):
        damage = lanes.Damage(2, (0, 1, 1, 3, 99), (lanes.Dark(3, 1),))
        self.assertEqual(lanes.received("10111", damage), "11" + "00101")

    def test_what_of_a_schedule_struck(self):
        damage = lanes.Damage(2, (0, 1, 1, 3, 5, 99), (lanes.Dark(3, 1), lanes.Dark(4, 9), lanes.Dark(5, 1)))
        self.assertEqual(lanes.received("10111", damage), "11" + "00100")
        self.assertEqual((lanes.changed("10111", damage), lanes.unused("10111", damage)), (3, 3))
        self.assertEqual((lanes.changed("", damage), lanes.unused("", damage)), (0, 9))
        self.assertEqual((lanes.changed("01", lanes.Damage(7)), lanes.unused("01", lanes.Damage(7))), (0, 0))


class Received(unittest.TestCase):
    def test_words_that_come_as_they_were_sent(self):
        words = words_of((1, bytes(300)), (2, b"abc"))
        outcome = outcome_of(words)
        self.assertEqual([(packet.channel, len(packet.data)) for packet in outcome.packets], [(1, 300), (2, 3)])
        self.assertEqual([(span.after, span.before, span.why) for span in outcome.spans],
                         [(None, (0, 1), "start"), ((0, len(words) - 1), None, "end")])
        self.assertEqual(outcome.drops, Counter())

    def test_faults(self):
        for changed, fault in ((Word(BAD, 0), "bad"), (Word(DATA, 9), "crc"), (Word(CONTROL, 9), "crc")):
            words = words_of((1, bytes(16)))
            words[113] = changed
            self.assertEqual([span.why for span in outcome_of(words).spans], ["start", fault, "end"])
            self.assertEqual(outcome_of(words).drops, Counter({fault: 1}))

    def test_faults_of_the_protocol(self):
        data, end = Word(DATA, 7), Word(CONTROL, IDLE | 0b1000 << 57)
        idle, burst, none = Word(CONTROL, IDLE), Word(CONTROL, BURST), Word(CONTROL, IDLE | 0b0010 << 57)
        for broken in ([idle, idle, data, idle], [idle, idle, end], [idle, idle, none], [idle, burst, data, none]):
            words = sealed(broken)
            parts = spans.stretches([epochs.epoch_of_words(words)])
            self.assertEqual([part.fault for part in parts], [None] * (len(parts) - 1) + ["protocol"])

    def test_spans_meet(self):
        span = spans.Span(epochs.Place(0, 4), epochs.Place(0, 9), "crc")
        met = [span.meets(epochs.Place(0, first), epochs.Place(0, last)) for first, last in ((0, 4), (0, 5), (8, 12), (9, 12))]
        self.assertEqual(met, [False, True, True, False])
        self.assertTrue(spans.Span(None, None, "start").meets(epochs.Place(0, 0), epochs.Place(0, 0)))

    def drops_of(self, *words, **settings):
        return outcome_of(sealed([Word(CONTROL, IDLE), Word(CONTROL, IDLE), *words]), **settings).drops

    def test_drops(self):
        burst, data, more = Word(CONTROL, BURST), Word(DATA, 7), Word(CONTROL, BURST & ~(1 << 61))
        end, error = Word(CONTROL, IDLE | 0b1000 << 57), Word(CONTROL, IDLE | 0b0001 << 57)
        self.assertEqual(self.drops_of(burst, data, end), {})
        self.assertEqual(self.drops_of(burst, data, error), {"sender": 1})
        self.assertEqual(self.drops_of(burst, data, end, longest=7), {"toolong": 1})
        self.assertEqual(self.drops_of(burst, data, burst, data, end), {"protocol": 1})
        self.assertEqual(self.drops_of(burst, data, end, more, data, end), {"protocol": 1})
        self.assertEqual(self.drops_of(more, data, end), {})
        self.assertEqual(self.drops_of(burst, data), {"end": 1})
        self.assertEqual(self.drops_of(burst, data, end, channels=(2,)), {"unlisted": 1})


class ShownByLanes(unittest.TestCase):
    @classmethod
    def setUpClass(cls):
        cls.words = words_of((1, bytes(900)))
        cls.bits = lanes.lane_bits(cls.words, LINK, 0)

    def found(self, damage):
        return locks.searches(lanes.received(self.bits, damage), LINK)

    def test_lock(self):
        lock, = self.found(lanes.Damage(11))
        self.assertEqual((lock.declared, lock.cause, len(lock.words)), (11 + 3 * 32 * 67, None, len(self.words) // 28 * 32 - 96))
        self.assertEqual(lock.words[3:31], self.words[84:112])

    def test_report(self):
        report = locks.report(self.found(lanes.Damage(0, (67 * 130 + 9, 67 * 131 + 1))), LINK)
        self.assertEqual(report, locks.Report(locks=1, first=6432, lost=0, unframed=0, bad=1, sync=0, state=0, diag=1))

    def test_a_lock_is_lost_for_headers(self):
        lock, = self.found(lanes.Damage(0, tuple(67 * (128 + turn) + 1 for turn in range(16))))[:1]
        # The last word that it covers is the one before the losing word.
        self.assertEqual((lock.cause, len(lock.words)), (locks.Cause.HEADERS, 128 + 15 - 96))

    def test_a_lock_is_lost_for_state(self):
        first, = self.found(lanes.Damage(0, (67 * 97 + 3,)))[:1]
        third, = self.found(lanes.Damage(0, tuple(67 * (32 * turn + 1) + 20 for turn in (4, 5, 6))))[:1]
        self.assertEqual((first.cause, len(first.words)), (locks.Cause.STATE, 1))
        self.assertEqual((third.cause, len(third.words)), (locks.Cause.STATE, 97))

    def test_a_lock_is_lost_for_sync(self):
        lock, = self.found(lanes.Damage(0, tuple(67 * 32 * turn + 20 for turn in (4, 5, 6, 7))))[:1]
        self.assertEqual((lock.cause, len(lock.words)), (locks.Cause.SYNC, 128))

    def test_a_search_is_given_up(self):
        # Seven metaframes of codes without a Sync: the next search begins a bit after six of them, and finds no 64 words more.
        idle = lanes.code(Word(CONTROL, IDLE), False)
        lock, = locks.searches(idle * 32 * 7, LINK)
        self.assertEqual((lock.declared, lock.cause), (None, locks.Cause.UNFRAMED))
        self.assertEqual(locks.report([lock], LINK).unframed, 1)

    def events_of(self, damage):
        """The events of the lane with this damage, each with the number of its word from bit 0."""
        bits = lanes.received(self.bits, damage)
        return [(event.bit // 67, event.name) for event in events.lane_events(bits, locks.searches(bits, LINK), LINK)]

    def test_events_of_a_lane(self):
        words = len(self.words) // 28 * 32
        self.assertEqual(self.events_of(lanes.Damage()), [(96, "lock")])
        flips = (67 * 128 + 9, 67 * 129 + 9, 67 * 130 + 9, 67 * 140 + 1, 67 * 159 + 40)
        self.assertEqual(self.events_of(lanes.Damage(0, flips)), [(96, "lock"), (128, "sync"), (129, "state"), (130, "skip"), (140, "bad"), (159, "diag")])
        framing = tuple(67 * at + 1 for at in (128, 129, 130, 159))
        told = [(at, name) for at, names in ((128, "bad sync"), (129, "bad state"), (130, "bad"), (159, "bad diag")) for name in names.split()]
        self.assertEqual(self.events_of(lanes.Damage(0, framing)), [(96, "lock"), *told])
        # A Data word in place of a Skip word, and one in place of a Sync.
        both = (67 * 130 + 1, 67 * 130 + 2, 67 * 128 + 1, 67 * 128 + 2)
        self.assertEqual(self.events_of(lanes.Damage(0, both)), [(96, "lock"), (128, "sync"), (130, "skip")])
        self.assertGreater(words, 192)

    def test_events_of_lost_locks(self):
        headers = tuple(67 * (128 + turn) + 1 for turn in range(16))
        self.assertEqual(self.events_of(lanes.Damage(0, headers))[-3:], [(142, "bad"), (143, "lost-headers"), (256, "lock")])
        self.assertEqual(self.events_of(lanes.Damage(0, (67 * 97 + 3,)))[:2], [(96, "lock"), (97, "lost-state")])
        syncs = tuple(67 * 32 * turn + 20 for turn in (4, 5, 6, 7))
        self.assertEqual([event for event in self.events_of(lanes.Damage(0, syncs)) if event[1] != "diag"][1:5],
                         [(128, "sync"), (160, "sync"), (192, "sync"), (224, "lost-sync")])
        # Wrong headers in the first block that lose the word lock, before a lock is declared; the next word lock declares one.
        before = self.events_of(lanes.Damage(0, tuple(67 * (64 + turn) + 1 for turn in range(16))))
        self.assertEqual(before[:1], [(79, "unframed")])

    def test_health(self):
        wanted = [word.number for word in lanes.framed(self.words[112:140], LINK, 0)]
        sent = wanted[-1]
        wanted[-1] ^= 1 << 33
        other = wanted[-1] - fields.bits(wanted[-1], 31, 0) + lanes.metaframe_crc(wanted)
        flips = tuple(67 * 159 + place for place, (a, b) in enumerate(zip(*(lanes.code(Word(CONTROL, n), False) for n in (sent, other)))) if a != b)
        self.assertIn((159, "health"), self.events_of(lanes.Damage(0, flips)))
        self.assertNotIn((159, "diag"), self.events_of(lanes.Damage(0, flips)))
    def test_balance(self):
        def unbalanced(*ones):
            bits = "0" * 5 + "".join("1" * count + "0" * (67 - count) for count in ones)
            return events.unbalanced_word(bits, locks.Lock(5, [Word(DATA, 0)] * len(ones), [], None, None))
        # 65 ones are 63 more than zeros, and 67 are 67 more: together they are over 129 by one.
        self.assertEqual([unbalanced(65, 67, 67), unbalanced(65, 66, 67), unbalanced(2, 0, 67), unbalanced(2, 1, 67)], [1, 2, 1, None])
        self.assertEqual([unbalanced(66, 1, 66, 1, 66, 1), unbalanced(67, 0, 67, 67, 67)], [None, 3])

    def test_groups_and_epochs(self):
        two = LINK._replace(lanes=2)
        words = words_of((1, bytes(300)), shape=SHAPE._replace(group=56))
        bits = [lanes.lane_bits(words, two, lane) for lane in range(2)]
        for skew, count in ((7 * 67, 1), (7 * 67 + 1, 0)):
            found = [locks.searches(lanes.received(part, lanes.Damage(lane * skew)), two) for lane, part in enumerate(bits)]
            self.assertEqual(len(epochs.epochs_of_lanes(found, two)), count)
        epoch, = epochs.epochs_of_lanes([locks.searches(part, two) for part in bits], two)
        self.assertEqual((epoch.words, epoch.places[0], epoch.ends_for), (words[168:], (6432, 0), "end"))

    def test_an_epoch_ends_where_a_lock_is_lost(self):
        found = self.found(lanes.Damage(0, (), (lanes.Dark(67 * 128, 67 * 20),)))
        epoch = epochs.epochs_of_lanes([found], LINK)[0]
        # Fifteen dark words are covered, of which the first three are framing.
        self.assertEqual((epoch.ends_for, len(epoch.words)), ("lost", 28 + 12))

    def test_gathered(self):
        count, period = len(self.words) // 28, 67 * 32
        words, rows = epochs.gathered(epochs.epochs_of_lanes([self.found(lanes.Damage())], LINK), LINK)
        self.assertEqual(words, self.words[84:])
        self.assertEqual(rows, [*((28 * turn, 6432 + period * turn, 0, None) for turn in range(count - 3)), (len(words), period * count, 0, "end")])
        # The lane comes twice: in the second the third wrong state word loses the lock, and three metaframes later another is declared.
        words, rows = epochs.gathered(epochs.epochs_of_lanes([locks.searches(2 * self.bits, LINK)], LINK), LINK)
        lost = 28 * (count - 3 + 2)
        self.assertEqual([row for row in rows if row.why], [(lost, period * (count + 2), 0, "lost"), (len(words), 2 * period * count, 0, "end")])
        self.assertEqual((words[lost], rows[rows.index((lost, period * (count + 2), 0, "lost")) + 1]), (epochs.NO_WORD, (lost + 1, period * (count + 6), 0, None)))
        self.assertEqual(words[lost + 1:], self.words[28 * 6:])

    def test_a_group_without_words_has_its_row(self):
        one = epochs.Epoch([], [], "lost", [(6432,)])
        self.assertEqual(epochs.gathered([one, one], LINK), ([epochs.NO_WORD], [(0, 6432, 0, None), (0, 6432, 0, "lost"), (1, 6432, 0, None), (1, 6432, 0, "lost")]))
        self.assertEqual(texts.places_table(epochs.gathered([one], LINK)[1]), b"word,group,index,why\n0,6432,0,-\n0,6432,0,lost\n")

    def test_accidents_and_missing_packets(self):
        sent = accidents.Sent(self.words, LINK, [0])
        found = self.found(lanes.Damage())
        shown = epochs.epochs_of_lanes([found], LINK)
        self.assertEqual(accidents.accidents(sent, [found], shown), (0, 0, 0))
        other = accidents.Sent([*self.words[:113], Word(DATA, 1), *self.words[114:]], LINK, [1])
        self.assertEqual(accidents.accidents(other, [found], shown)[:2], (1, len(shown[0].groups)))
        listed = stream.listed_packets(self.words)
        outcome = reassembly.reassembled(shown, reassembly.Settings([1, 2], 900, False))
        self.assertEqual(accidents.missing(sent, listed, outcome.packets, outcome.spans), [])
        self.assertEqual(accidents.missing(sent, listed, [], outcome.spans), [(listed[0], 2)])

    def test_another_stretch_than_the_sent_one(self):
        words = sealed([*self.words[:113], Word(DATA, 1), *self.words[114:]])
        found = locks.searches(lanes.lane_bits(words, LINK, 0), LINK)
        shown = epochs.epochs_of_lanes([found], LINK)
        self.assertEqual(accidents.accidents(accidents.Sent(self.words, LINK, [0]), [found], shown), (0, 0, 1))


class TwoEnds(unittest.TestCase):
    def test_queues_and_peaks(self):
        settings = plan.DuplexSettings("p", 10, 16, 200, 4, "o", [])
        of = plan.plan_of(b"lanes,1\nmetaframe,32\nwarmup,4\nchannel,1\nout,o\n")
        a, b = duplex.duplex_run(of, [[(1, bytes(64))], []], settings)
        # Eight words join in slots 123 to 130, and the queue loses one in 124 and in 128.
        self.assertEqual(([len(packet.data) for packet in b.packets], b.peaks, a.packets), ([64], {1: 6}, []))

    def test_what_is_heard(self):
        settings = plan.DuplexSettings("p", 1, 1, 9, 1, "o", [])
        side = duplex.Side(plan.plan_of(b"lanes,1\nmetaframe,32\nchannel,1\nout,o\n"), [], settings)
        self.assertEqual(side.hear(1, Word(CONTROL, IDLE)), [])
        self.assertEqual(side.hear(2, Word(CONTROL, IDLE ^ 1)), [FlowRow(2, IDLE)])


class Status(unittest.TestCase):
    def test_samples_that_are_written(self):
        rows = [LocalRow(0, 2, False), LocalRow(5, 2, True), LocalRow(5, 3, False)]
        self.assertEqual(oob.written([1, 2, 3, 4], rows).hex(),
                         "06070001020302030001000102030203" "06070203000102030203000100010203")

    def test_rows_of_samples(self):
        samples = oob.written([1, 2, 3, 4], [LocalRow(0, 2, False), LocalRow(5, 2, True), LocalRow(5, 3, False)])
        self.assertEqual(oob.rows_of_samples(samples, 4), [(15, 0x81BFFF00004B8D9D), (31, 0x81DFFF0000310702)])
        wrong = samples[:21] + bytes([3]) + samples[22:]
        self.assertEqual(oob.rows_of_samples(wrong, 4), [(15, 0x81BFFF00004B8D9D), (31, 0)])

    def test_blocks(self):
        states = [True] * 70
        self.assertEqual(len(oob.frame(states)), 2 * (70 + 8))
        self.assertEqual(len(oob.rows_of_samples(oob.frame(states), 70)), 5)


class SentAgain(unittest.TestCase):
    def test_pieces(self):
        words = [Word(CONTROL, 1), Word(DATA, 2), Word(DATA, 3), Word(CONTROL, 4), Word(DATA, 5)]
        self.assertEqual(resend.cut(words), [words[:1], words[1:4]])

    def counts(self, *events, window=64):
        return tuple(resend.resent([Word(CONTROL, IDLE)] * 9, window, events)[1])

    def test_events(self):
        late = self.counts(("send", 4), ("take", 4), ("rewind", 1), ("takeback", 3), ("send", 1), ("take", 1))
        self.assertEqual(late, (9, 4, 3, 5))
        lost = self.counts(("send", 3), ("lose", 1), ("take", 2), ("takeback", 2), ("rewind", 1), ("send", 1), ("take", 1))
        self.assertEqual(lost, (9, 1, 0, 4))
        self.assertEqual(self.counts(("send", 9), ("repeat", 1), ("take", 3), window=2), (9, 2, 0, 2))
        self.assertEqual(self.counts(("send", 2), ("take", 2), ("loseback", 1), ("repeatback", 1), ("takeback", 1)), (9, 2, 2, 2))


class Files(unittest.TestCase):
    def test_captures(self):
        packets = [b"ab", b"c"]
        self.assertEqual(pcap.capture(pcap.written(packets, 1), 2), packets)
        for data, why in ((b"abc", "short at 0"), (b"\x0a\x0d\x0d\x0a", "pcapng"), (b"\1\2\xab\4", "magic 0102AB04"),
                          (pcap.written(packets, 1)[:-1], "short at 42"), (pcap.written([b""], 1), "empty record 0"),
                          (pcap.written([b"abc"], 1), "long record 0 length 3")):
            self.assertEqual(refusal(pcap.capture, data, 2), why)

    def test_words_files(self):
        words = [Word(DATA, 1), Word(BAD, 2)]
        data = words_file.file_of_words(words)
        self.assertEqual((data[:9], words_file.words_of_file(data)), (b"\1" + bytes(7) + b"\1", words))
        self.assertEqual(refusal(words_file.words_of_file, data[:-1]), "short at 9")
        self.assertEqual(refusal(words_file.words_of_file, data + b"\4"), "tag at 18")

    def test_listing_of_words(self):
        lines = [listing.word_line(Word(kind, number)) for kind, number in ((CONTROL, IDLE), (DATA, 255), (BAD, 1), (CONTROL, 0))]
        self.assertEqual(lines[0], "idle sop=0 eop=none reset=1 flow=FFFF channel=0 multi=0 crc=188177")
        self.assertEqual(lines[1:], ["data 00000000000000FF", "bad 0000000000000001", "control 0000000000000000"])
        self.assertEqual(listing.listing("x.words", listing.assembled(listing.text_of(["words", *lines]))), ["words", *lines])

    def test_listing_of_a_lane(self):
        lines = ["lane", "sync 1", "state 0 3FFFFFFFFFFFFFF", "code 1 10 1E1E1E1E1FE1E1DE", "rest 0000000"]
        self.assertEqual(listing.listing("x", listing.assembled(listing.text_of(lines))), lines)

    def test_refusals_of_a_text(self):
        for text, why in ((b"word\n", "head"), (b"words", "head"), (b"words\ndata 0\n", "line 2"),
                          (b"words\ndata 0000000000000000", "line 2"), (b"lane\nsync 0\n", "length"),
                          (b"lane\nrest 0\nrest 0\n", "line 3"), (b"lane\ncode 0 10 78F678F678F678F6\n", "line 2")):
            self.assertEqual(refusal(listing.assembled, text), why)

    def test_rows(self):
        self.assertEqual(csv_rows.rows_of(b'\xef\xbb\xbf"a,b",""""\r\n\n\rc\rd'), [[b"a,b", b'"'], [b"c"], [b"d"]])

    def test_plans(self):
        good = b"lanes,1\nmetaframe,32\nchannel,1\nout,o\n"
        of = plan.plan_of(good)
        self.assertEqual((of.shape, of.entries), (Shape(28, 8, 256, 64, 0), [1]))
        for row, why in ((b"\xff", "text"), (b"lane,1", "key"), (b"skips", "fields"), (b"skips,x", "number"), (b"skips,5", "range"),
                         (b"lanes,1", "repeat"), (b"entry,2", "clash"), (b"deskew,16", "clash"), (b"burst_short,264", "clash"),
                         (b"burst_min,160", "clash"), (b"channel,256", "clash")):
            self.assertEqual(refusal(plan.plan_of, good + row), "row 5: " + why)
        self.assertEqual(refusal(plan.plan_of, b"lanes,1\n"), "missing metaframe")
        self.assertEqual(refusal(plan.plan_of_oobread, good), "missing oob")
        self.assertEqual(refusal(plan.plan_of_resend, good + b"wide,1\nevents,e\n"), "row 5: clash")

    def test_files_of_rows(self):
        of = plan.plan_of(b"lanes,2\nmetaframe,32\nchannel,1\nout,o\n")
        self.assertEqual(inputs.flow_rows(b"0,81ffff0000188177\n"), [(0, IDLE)])
        self.assertEqual(refusal(inputs.flow_rows, b"2,81FFFF0000188177\n1,81FFFF0000188177\n"), "row 2: clash")
        self.assertEqual(inputs.local_rows(b"3,1,off\n", of), [(3, 1, False)])
        self.assertEqual(refusal(inputs.local_rows, b"3,2,off\n", of), "row 1: clash")
        self.assertEqual(inputs.schedule(b"skew,1,5\nflip,0,7\ndark,1,2,3\n", 2),
                         [lanes.Damage(0, (7,)), lanes.Damage(5, (), (lanes.Dark(2, 3),))])
        self.assertEqual(refusal(inputs.schedule, b"flip,2,0\n", 2), "row 1: range")
        self.assertEqual(inputs.events(b"send,2\n"), [("send", 2)])
        self.assertEqual(refusal(inputs.events, b"send,4194304\ntake,1\n"), "row 2: range")

    def test_settings(self):
        rows = b"plan,p\ndelay,1\nmark,2\nslots,3\nout,o\nback,7,c\n"
        self.assertEqual(plan.settings_of(rows), plan.DuplexSettings("p", 1, 2, 3, 1, "o", [(6, 7, "c")]))
        self.assertEqual(refusal(plan.settings_of, rows + b"back,7,d\n"), "row 7: repeat")

    def test_draws(self):
        self.assertEqual([cases.Draws(number).below(8) for number in (0, 7)], [7, 6])

    def test_texts(self):
        spans_of = [spans.Span(None, epochs.Place(0, 1), "start"), spans.Span(epochs.Place(0, 1), None, "end")]
        table = b"after_group,after_index,before_group,before_index,why\n-,-,0,1,start\n0,1,-,-,end\n"
        self.assertEqual(texts.span_table(spans_of), table)
        line = "dropped bad=0 crc=1 protocol=0 lost=0 end=0 toolong=0 unlisted=0 sender=0"
        self.assertEqual(texts.dropped_line(Counter(crc=1)), line)


class Laws(unittest.TestCase):
    """What is proved of the program, on a few random cases of the model."""

    def linked(self, d):
        """The packets that came over a damaged link, those that were sent, the spans, and the accidents."""
        made, link = stream.payload_stream(d.source()), d.plan.link
        sent = [lanes.lane_bits(made.words, link, lane) for lane in range(link.lanes)]
        rows = random_inputs.schedule_rows(d.r, d.plan, len(sent[0]))
        damages = inputs.schedule(random_inputs.spelled(d.r, rows), link.lanes)
        found = [locks.searches(lanes.received(part, damage), link) for part, damage in zip(sent, damages)]
        shown = epochs.epochs_of_lanes(found, link)
        outcome = reassembly.reassembled(shown, d.plan.settings)
        at = accidents.Sent(made.words, link, [damage.skew for damage in damages])
        of = [(d.packets[packet.channel][packet.number], packet) for packet in stream.listed_packets(made.words)]
        whole = [(data, packet.channel, at.place(packet.first), at.place(packet.last)) for data, packet in of if packet.last]
        return outcome, whole, sum(accidents.accidents(at, found, shown))

    def test_delivery(self):
        """Without accidents each channel gets exactly the sent packets that meet no span, in order."""
        tried = 0
        for seed in range(30):
            outcome, sent, count = self.linked(random_inputs.Drawn(Random(seed), longest=500))
            if count:
                continue
            unmet = [(channel, data) for data, channel, first, last in sent
                     if not any(span.meets(first, last) for span in outcome.spans)]
            came = [(packet.channel, packet.data) for packet in outcome.packets]
            self.assertEqual(sorted(came, key=lambda one: one[0]), sorted(unmet, key=lambda one: one[0]))
            tried += bool(unmet)
        self.assertGreater(tried, 9)

    def test_gathered_words_deliver_the_same(self):
        """`join` of what `gather` writes delivers what `receive` delivers."""
        several = 0
        for seed in range(30):
            d = random_inputs.Drawn(Random(seed))
            words, link = stream.payload_stream(d.source()).words, d.plan.link
            sent = [lanes.lane_bits(words, link, lane) for lane in range(link.lanes)]
            rows = random_inputs.schedule_rows(d.r, d.plan, len(sent[0]))
            damages = inputs.schedule(random_inputs.spelled(d.r, rows), link.lanes)
            shown = epochs.epochs_of_lanes([locks.searches(lanes.received(2 * part, damage), link) for part, damage in zip(sent, damages)], link)
            gathered = epochs.epoch_of_words(epochs.gathered(shown, link)[0])
            came = [reassembly.reassembled(parts, d.plan.settings).packets for parts in (shown, [gathered])]
            self.assertEqual(*([(packet.channel, packet.data) for packet in packets] for packets in came))
            several += len(shown) > 1 and bool(came[0])
        self.assertGreater(several, 9)

    def test_events_are_those_that_a_lane_counts(self):
        """The rows of a lane are as many as its line counts."""
        for seed in range(30):
            d = random_inputs.Drawn(Random(seed))
            words, link = stream.payload_stream(d.source()).words, d.plan.link
            sent = [lanes.lane_bits(words, link, lane) for lane in range(link.lanes)]
            for part, damage in zip(sent, inputs.schedule(random_inputs.spelled(d.r, random_inputs.schedule_rows(d.r, d.plan, len(sent[0]))), link.lanes)):
                bits = lanes.received(2 * part, damage)
                found = locks.searches(bits, link)
                counts = Counter(event.name for event in events.lane_events(bits, found, link))
                report = locks.report(found, link)
                lost = counts["lost-headers"] + counts["lost-sync"] + counts["lost-state"]
                told = [report.locks, report.lost, report.unframed, report.bad, report.sync, report.state, report.diag]
                self.assertEqual(told, [counts["lock"], lost, *(counts[name] for name in ("unframed", "bad", "sync", "state", "diag"))])

    def test_peaks_are_bounded(self):
        """No peak of a channel with a calendar entry is above mark + K (B + 1) + B + 2 delay + 2."""
        for seed in range(12):
            d = random_inputs.Drawn(Random(seed))
            settings = plan.DuplexSettings("p", d.r.randint(1, 40), d.r.randint(1, 20), 900, d.r.choice([4, 1_024]), "o", [])
            packets = d.source().packets
            burst, calendar = d.plan.shape.burst_max // 8, -(-len(d.plan.entries) // 16)
            bound = settings.mark + calendar * (burst + 1) + burst + 2 * settings.delay + 2
            for end in duplex.duplex_run(d.plan, [packets, packets], settings):
                for channel in d.plan.entries:
                    self.assertLessEqual(end.peaks[channel], bound)

    def test_status_is_read_back(self):
        """By the rows of samples each channel is on exactly if it was on in the last frame."""
        for seed in range(30):
            d = random_inputs.Drawn(Random(seed))
            rows = random_inputs.local_rows(d.r, d.plan.channels, 700)
            shown, read = flow.Outgoing(d.plan.entries), flow.Incoming(d.plan.entries)
            for row in rows:
                shown.take(row)
            for row in oob.rows_of_samples(oob.written(d.plan.entries, rows), len(d.plan.entries)):
                read.take(row.number)
            self.assertEqual([channel for channel in d.plan.entries if read.is_on(channel)],
                             [channel for channel in d.plan.entries if shown.state[channel]])

    def test_listings_undo(self):
        """What is listed is assembled again."""
        for seed in range(60):
            r = Random(seed)
            for name, data in (("x", random_listings.lane_data(r)), ("x.words", random_listings.words_data(r))):
                if refusal(listing.listing, name, data) is None:
                    self.assertEqual(listing.assembled(listing.text_of(listing.listing(name, data))), data)


class Runs(unittest.TestCase):
    def setUp(self):
        self.home, self.folder = os.getcwd(), tempfile.TemporaryDirectory()
        os.chdir(self.folder.name)

    def tearDown(self):
        os.chdir(self.home)
        self.folder.cleanup()

    def write(self, **files):
        for name, data in files.items():
            with open(name.replace("_", "."), "wb") as file:
                file.write(data)

    def read(self, name):
        with open(name, "rb") as file:
            return file.read()

    def test_accepted_words(self):
        for words in ([], ["burst"], ["burst", "-x"], ["frob", "x"], ["burst", "x" * 256], ["generate", "1" * 21, "g"],
                      ["generate", str(2 ** 64), "g"]):
            self.assertEqual(interlaken.run(words), (2, texts.USAGE + "\n"))
        self.assertEqual(interlaken.run(["burst", "absent"]), (5, "input refused: absent: no file\n"))
        self.assertEqual(interlaken.run(["send", "absent"]), (4, "plan refused: no file\n"))

    def test_a_capture_there_and_back(self):
        self.write(a_pcap=pcap.written([bytes(60)], 1))
        self.assertEqual(interlaken.run(["burst", "a.pcap"]), (0, "sent channel=0 packets=1 bytes=60 left=0\nslots 12\n"))
        status, text = interlaken.run(["join", "a.pcap.words"])
        self.assertEqual((status, text.splitlines()[:2]), (0, ["got channel=0 packets=1 bytes=60", "spans 2"]))
        with open("a.pcap.words.0.pcap", "rb") as file:
            self.assertEqual(file.read(), pcap.written([bytes(60)], 1))

    def test_stripe(self):
        self.write(p_plan=b"lanes,1\nmetaframe,32\nwarmup,4\nchannel,0\nout,o\n", o_words=b"")
        self.assertEqual(interlaken.run(["stripe", "p.plan"]), (0, "slots 0\n"))
        self.assertEqual(self.read("o.lane.0"), b"")
        idle = bytes.fromhex("0281FFFF0000188177")
        self.write(o_words=3 * idle)
        self.assertEqual(interlaken.run(["stripe", "p.plan"]), (0, "slots 28\n"))
        lane = self.read("o.lane.0")
        self.write(o_words=28 * idle)
        self.assertEqual(interlaken.run(["stripe", "p.plan"]), (0, "slots 28\n"))
        self.assertEqual(self.read("o.lane.0"), lane)
        for data, why in ((idle + b"\3" + idle[1:], "tag at 9"), (idle + b"\3", "tag at 9"), (idle[:8], "short at 0"), (idle + b"\1", "short at 9")):
            self.write(o_words=data)
            self.assertEqual(interlaken.run(["stripe", "p.plan"]), (5, "input refused: o.words: %s\n" % why))

    def test_check(self):
        self.write(p_plan=b"lanes,1\nmetaframe,32\nwarmup,4\nchannel,0,a.pcap\nout,o\n", a_pcap=pcap.written([bytes(60)], 1))
        interlaken.run(["burst", "p.plan"])
        self.assertEqual(interlaken.run(["check", "p.plan"]), (0, "words 168\nfaults 0\n"))
        self.assertEqual(self.read("o.faults.csv"), b"word,rule,channel\n")
        sent = words_file.words_of_file(self.read("o.words"))
        at = next(number for number, word in enumerate(sent) if rules.is_burst_word(word))

        def judged(number, word):
            self.write(o_words=words_file.file_of_words([*sent[:number], word, *sent[number + 1:]]))
            return interlaken.run(["check", "p.plan"])[1].splitlines()[1:], self.read("o.faults.csv").splitlines()[1:]

        own = sent[at].number
        self.assertEqual(judged(at + 1, fields.Word(fields.DATA, 1)), (["faults 1", "rule crc=1"], [b"%d,crc,-" % (at + 9)]))
        no_sop, channel_7 = fields.sealed([], own & ~(1 << 61)), fields.sealed([], own | 7 << 32)
        self.assertEqual(judged(at, fields.Word(fields.CONTROL, no_sop)), (["faults 1", "rule open=1"], [b"%d,open,0" % at]))
        self.assertEqual(judged(at, fields.Word(fields.CONTROL, channel_7)), (["faults 1", "rule channel=1"], [b"%d,channel,7" % at]))

    def test_gather(self):
        self.write(p_plan=b"lanes,2\nmetaframe,32\nwarmup,4\nchannel,1,a.pcap\nout,o\n", a_pcap=pcap.written([bytes(60)], 1))
        interlaken.run(["burst", "p.plan"])
        words = self.read("o.words")
        interlaken.run(["stripe", "p.plan"])
        status, text = interlaken.run(["gather", "p.plan"])
        self.assertEqual((status, text.splitlines()[2:]), (0, ["words %d" % (len(words) // 9 - 168), "epochs 1"]))
        self.assertEqual(self.read("o.words"), words[9 * 168:])
        self.assertEqual(self.read("o.places.csv").splitlines()[:3], [b"word,group,index,why", b"0,6432,0,-", b"56,8576,0,-"])
        self.write(o_lane_0=b"\xff" * 1000)
        status, text = interlaken.run(["gather", "p.plan"])
        self.assertEqual((status, text.splitlines()[2:]), (0, ["words 0", "epochs 0"]))
        self.assertEqual((self.read("o.words"), self.read("o.places.csv")), (b"", b"word,group,index,why\n"))

    def test_inspect(self):
        self.write(p_plan=b"lanes,2\nmetaframe,32\nwarmup,4\nchannel,1,a.pcap\nout,o\nschedule,s\n", a_pcap=pcap.written([bytes(60)], 1),
                   s=b"skew,1,3\nflip,1,%d\n" % (67 * 140 + 1))
        interlaken.run(["link", "p.plan"])
        status, text = interlaken.run(["inspect", "p.plan"])
        self.assertEqual((status, text.splitlines()), (0, [
            "lane 0 locks=1 first=6432 lost=0 unframed=0 bad=0 sync=0 state=0 diag=0",
            "lane 1 locks=1 first=6435 lost=0 unframed=0 bad=1 sync=0 state=0 diag=1", "events 4"]))
        self.assertEqual(self.read("o.events.csv").splitlines(), [b"lane,bit,event", b"0,6432,lock", b"1,6435,lock", b"1,9383,bad", b"1,10656,diag"])
        os.remove("o.lane.1")
        self.assertEqual(interlaken.run(["inspect", "p.plan"]), (5, "input refused: o.lane.1: no file\n"))

    def test_damage(self):
        self.write(p_plan=b"lanes,2\nmetaframe,32\nwarmup,4\nchannel,1\nout,o\nschedule,s\n", o_lane_0=b"\x80\x01", o_lane_1=b"",
                   s=b"skew,0,3\nflip,0,15\nflip,0,16\ndark,1,0,9\n")
        self.assertEqual(interlaken.run(["damage", "p.plan"]), (0, "damaged lane=0 skew=3 bits=1 unused=1\ndamaged lane=1 skew=0 bits=0 unused=1\n"))
        self.assertEqual((self.read("o.damaged.lane.0"), self.read("o.damaged.lane.1")), (b"\xf0\x00\x00", b""))
        os.remove("o.lane.1")
        self.assertEqual(interlaken.run(["damage", "p.plan"]), (5, "input refused: o.lane.1: no file\n"))
        self.write(s=b"flip,2,0\n")
        self.assertEqual(interlaken.run(["damage", "p.plan"]), (5, "input refused: s: row 1: range\n"))

    def test_damage_of_sent_lanes_makes_those_of_link(self):
        rows = b"skew,0,11\nskew,1,200\nflip,0,9000\ndark,1,8000,70\n"
        self.write(p_plan=b"lanes,2\nmetaframe,32\nwarmup,4\nchannel,1,a.pcap\nout,o\nschedule,s\n", a_pcap=pcap.written([bytes(60)], 1), s=rows)
        interlaken.run(["link", "p.plan"])
        linked = [self.read("o.lane.%d" % lane) for lane in range(2)]
        interlaken.run(["send", "p.plan"])
        self.assertEqual(interlaken.run(["damage", "p.plan"])[0], 0)
        self.assertEqual([self.read("o.damaged.lane.%d" % lane) for lane in range(2)], linked)

    def test_stripe_after_burst_makes_the_lanes_of_send(self):
        self.write(p_plan=b"lanes,2\nmetaframe,32\nwarmup,4\nchannel,1,a.pcap\nout,o\n", a_pcap=pcap.written([bytes(60)], 1))
        status, text = interlaken.run(["send", "p.plan"])
        sent = [self.read("o.lane.%d" % lane) for lane in range(2)]
        interlaken.run(["burst", "p.plan"])
        self.assertEqual(interlaken.run(["stripe", "p.plan"]), (0, text.splitlines()[-1] + "\n"))
        self.assertEqual([self.read("o.lane.%d" % lane) for lane in range(2)], sent)

    def test_link(self):
        self.write(p_plan=b"lanes,2\nmetaframe,32\nwarmup,4\nchannel,1,one.pcap\nchannel,2,two.pcap\nschedule,s\nout,o\n",
                   one_pcap=pcap.written([bytes(300), bytes(40)], 1), two_pcap=pcap.written([bytes(300), bytes(40)], 1),
                   s=b"skew,0,11\nskew,1,200\nflip,0,9000\n")
        status, text = interlaken.run(["link", "p.plan"])
        self.assertEqual((status, text.splitlines()), (0, [
            "sent channel=1 packets=2 bytes=340 left=0", "sent channel=2 packets=2 bytes=340 left=0", "slots 392",
            "lane 0 locks=1 first=6443 lost=0 unframed=0 bad=0 sync=0 state=0 diag=1",
            "lane 1 locks=1 first=6632 lost=0 unframed=0 bad=0 sync=0 state=0 diag=0",
            "got channel=1 packets=1 bytes=40", "got channel=2 packets=1 bytes=40", "spans 3",
            "dropped bad=0 crc=1 protocol=0 lost=0 end=0 toolong=0 unlisted=0 sender=0", "accidents locks=0 groups=0 stretches=0",
            "missing channel=1 packet=0 first=224 last=297 span=1", "missing channel=2 packet=0 first=257 last=306 span=1"]))


if __name__ == "__main__":
    unittest.main()
