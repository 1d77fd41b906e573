"""Draws the fields of a control word by its bits, over the burst word of the tour's packet as the words file has it.

The script ends with an error if the fields of the drawn word are not those that the tour names.
"""

from picture.svg import COLOURS, Picture, length_of
from reading.control_words import is_control, is_reset
from reading.files import must_agree

PLAN, SLOT = "damaged.plan", 224
LEFT, BIT, TOP, TALL = 12, 14, 58, 34
# Each field: its highest and lowest bit, its name, and what it says, from the left.
FIELDS = [
    (63, 63, "1", "control word"), (62, 62, "B", "a burst follows"), (61, 61, "S", "SOP: the burst begins a packet"),
    (60, 57, "EOP", "how the data before ended: 0000 no end, 0001 error, 1xxx valid bytes"), (56, 56, "R", "Reset Calendar: bit 55 is entry 0"),
    (55, 40, "flow: 16 entries", "flow control: 1 on, 0 off"), (39, 32, "channel", "channel of the burst"),
    (31, 24, "multiple use", "multiple use; of a wide channel the upper byte"), (23, 0, "CRC24", "covers the data before it and this word"),
]
SMALL = ' font-size="9"'
COLOUR = ["#d5d8dc", "#eaf2f8"]


def field(word, high, low):
    return word >> low & (1 << high - low + 1) - 1


def check(word):
    """That the word is the one of the tour: the first burst of channel 1."""
    must_agree("the burst word of slot %d" % SLOT, "%016X" % word, "E1FFFF01004EAC73")
    fields = [field(word, high, low) for high, low, _, _ in FIELDS]
    must_agree("its fields", fields[:8], [1, 1, 1, 0, 1, 0xFFFF, 1, 0])
    must_agree("that it is a control word with Reset Calendar", (is_control(word), is_reset(word)), (True, True))


def draw_bits(picture, word):
    for place, (high, low, name, _) in enumerate(FIELDS):
        x, width = LEFT + BIT * (63 - high), BIT * (high - low + 1)
        picture.box(x, TOP, width - 1, TALL, COLOUR[place % 2])
        picture.text(x + width / 2, TOP + 22, name if length_of(name) <= width + 4 else "", anchor="middle")
        picture.text(x + 1, TOP - 6, "%d" % high, COLOURS["note"], more=SMALL)
        if high > low:
            picture.text(x + width - 2, TOP - 6, "%d" % low, COLOURS["note"], "end", SMALL)
        for bit in range(high, low - 1, -1):
            picture.text(LEFT + BIT * (63 - bit) + BIT / 2, TOP + TALL + 16, "%d" % (word >> bit & 1), anchor="middle")


def draw_meanings(picture, word):
    for place, (high, low, name, meaning) in enumerate(FIELDS):
        y = TOP + TALL + 48 + 18 * place
        bits = "bit %d" % high if high == low else "bits %d to %d" % (high, low)
        value = field(word, high, low)
        here = "%d" % value if high == low else format(value, "0%db" % (high - low + 1)) if high - low == 3 else "%0*X" % ((high - low + 1) // 4, value)
        picture.text(LEFT, y, bits, COLOURS["note"])
        picture.text(LEFT + 100, y, meaning)
        picture.text(LEFT + 560, y, "here " + here, COLOURS[1])


def draw(folder, path):
    folder.run("burst", PLAN)
    word = folder.words("damaged.words")[SLOT][1]
    check(word)
    picture = Picture(2 * LEFT + 64 * BIT, TOP + TALL + 48 + 18 * len(FIELDS))
    picture.text(LEFT, 20, "A control word, bit 63 first, and below it the word of slot %d: %016X" % (SLOT, word))
    draw_bits(picture, word)
    draw_meanings(picture, word)
    picture.save(path)
