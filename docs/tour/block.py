"""Draws the two CRC24 blocks of the tour's fault span, from the words file and the span table: why the second packet is lost, though none
of its own words is damaged.

The script ends with an error if the words are not those that the tour names.
"""

from picture.svg import COLOURS, Picture
from reading.files import must_agree

PLAN = "damaged.plan"
# The slots of the tour: the burst words of both packets, the damaged word, and the first verified control word after the span.
FIRST, DAMAGED, SECOND, AFTER = 224, 230, 257, 290
LEFT, WORD, TOP = 92, 11, 66
WIDTH, HEIGHT = 960, 268
ONE, TWO, RED = COLOURS[1], COLOURS[2], COLOURS["lost"]
BOLD = ' font-weight="bold"'


def check(words):
    """That the control words of the span are at these slots and no others, and that both bursts begin a packet."""
    controls = [slot for slot in range(FIRST, AFTER + 1) if words[slot][0] == 2]
    must_agree("the control words of slots %d to %d" % (FIRST, AFTER), controls, [FIRST, SECOND, AFTER])
    starts = [(words[slot][1] >> 61 & 3, words[slot][1] >> 32 & 255) for slot in (FIRST, SECOND)]
    must_agree("SOP and channel of both bursts", starts, [(3, 1), (3, 2)])


def x_of(slot):
    return LEFT + WORD * (slot - FIRST)


def draw_words(picture):
    picture.box(x_of(FIRST), TOP - 10, x_of(AFTER) - x_of(FIRST), 58, COLOURS["span"])
    for slot in range(FIRST, AFTER + 5):
        colour = RED if slot == DAMAGED else ONE if slot < SECOND or slot >= AFTER else TWO
        is_control = slot in (FIRST, SECOND, AFTER)
        picture.box(x_of(slot), TOP if is_control else TOP + 7, WORD - 1.5, 36 if is_control else 22, colour)
    picture.text(8, TOP + 22, "words")
    picture.text(x_of(DAMAGED) + 2, TOP - 16, "slot %d is damaged" % DAMAGED, RED)
    for slot, text, colour, anchor in ((FIRST, "%d verified" % FIRST, ONE, "start"), (SECOND, "%d not verified: its block fails" % SECOND, RED, "middle"), (AFTER, "%d verified" % AFTER, ONE, "middle")):
        picture.text(x_of(slot) if slot != FIRST else 8, TOP - 34, text, colour, anchor, BOLD)
        if slot != FIRST:
            picture.line(x_of(slot) + WORD / 2, TOP - 28, x_of(slot) + WORD / 2, TOP - 2, colour)


def draw_blocks(picture):
    for first, last, text, colour in ((FIRST + 1, SECOND, "CRC24 block of slots %d to %d: fails", RED), (SECOND + 1, AFTER, "CRC24 block of slots %d to %d: passes", COLOURS["sync"])):
        y = TOP + 60
        picture.bent_line([(x_of(first), y - 6), (x_of(first), y), (x_of(last + 1) - 2, y), (x_of(last + 1) - 2, y - 6)], colour)
        picture.text((x_of(first) + x_of(last + 1)) / 2, y + 18, text % (first, last), colour, "middle", BOLD)


def draw_packets(picture):
    for place, (name, first, colour, text) in enumerate((
            ("channel 1", FIRST, ONE, "packet 0: a word of it is damaged"), ("channel 2", SECOND, TWO, "packet 0: its burst word is not verified"))):
        y = TOP + 98 + 32 * place
        picture.text(8, y + 15, name)
        picture.frame(x_of(first), y, x_of(AFTER + 5) - x_of(first), 22, colour)
        picture.text(x_of(first) + 6, y + 15, text, colour)


def draw(folder, path):
    words = folder.words("damaged.words")
    check(words)
    picture = Picture(WIDTH, HEIGHT)
    draw_words(picture)
    draw_blocks(picture)
    draw_packets(picture)
    for place, text in enumerate((
            "A CRC24 covers the words after a control word, up to and with the next. So the burst word of slot %d belongs to the block that fails." % SECOND,
            "The receiver cannot trust it, nor the data behind it: the span goes from the last verified control word to the next one, and meets both packets.")):
        picture.text(8, TOP + 180 + 17 * place, text)
    picture.save(path)
