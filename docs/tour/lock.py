"""Draws the states of a lane's lock, and what leads from one to another, by the definition of a lock.

The numbers are those by which the tools read a lane.
"""

from picture.svg import COLOURS, Picture
from reading.lane_words import HEADERS, ILLEGAL, SEARCHED
from reading.metaframes import WRONG_STATES, WRONG_SYNCS

WIDTH, HEIGHT = 900, 318
BLUE, RED, GREY = COLOURS["sync"], COLOURS["lost"], COLOURS["note"]
TOP, TALL, BROAD = 96, 64, 170
STATES = [("search", "no word lock", 20), ("word lock", "words are known", 365), ("declared lock", "metaframes are known", 710)]
# What leads on, and what leads back: between which states, and the lines of its text.
ON = [(0, 1, ["%d words in a row" % HEADERS, "with legal headers"]), (1, 2, ["%d Sync words" % WRONG_SYNCS, "a metaframe apart"])]
ILLEGAL_HEADERS = "%d of a block of %d headers are illegal" % (ILLEGAL, HEADERS)
BACK = [
    (1, 0, 204, ["unframed: no lock within %d metaframes," % SEARCHED, "or %s" % ILLEGAL_HEADERS]),
    (2, 0, 246, ["lost-headers: %s" % ILLEGAL_HEADERS, "lost-sync: %d wrong Sync words in a row" % WRONG_SYNCS,
                 "lost-state: %d wrong Scrambler State words in a row, or no such word after the declaring Sync word" % WRONG_STATES]),
]


def draw_states(picture):
    for name, note, x in STATES:
        picture.box(x - 1.5, TOP - 1.5, BROAD + 3, TALL + 3, BLUE)
        picture.box(x, TOP, BROAD, TALL, COLOURS["lane"])
        picture.text(x + BROAD / 2, TOP + 28, name, anchor="middle", more=' font-weight="bold"')
        picture.text(x + BROAD / 2, TOP + 46, note, GREY, "middle")


def draw_ways(picture):
    for first, last, lines in ON:
        x, to_x = STATES[first][2] + BROAD + 3, STATES[last][2] - 3
        picture.arrow(x, TOP + TALL / 2, to_x, TOP + TALL / 2, BLUE)
        for place, line in enumerate(lines):
            picture.text((x + to_x) / 2, TOP + TALL / 2 - 24 + 16 * place, line, BLUE, "middle")
    for first, last, y, lines in BACK:
        x, to_x = STATES[last][2] + (110 if first == 1 else 60), STATES[first][2] + BROAD / 2
        picture.bent_line([(to_x, TOP + TALL + 2), (to_x, y), (x, y)], RED)
        picture.arrow(x, y, x, TOP + TALL + 3, RED)
        for place, line in enumerate(lines):
            picture.text(x + 10, y + (-22 if first == 1 else 16) + 16 * place, line, RED)


def draw(folder, path):
    picture = Picture(WIDTH, HEIGHT)
    picture.text(20, 24, "The lock of one lane. Headers are watched in blocks of 64 words, from the first word of the word lock on.")
    picture.text(20, 44, "The next search begins at the bit after the word that ended the lock; after a search that was given up, one bit later.", GREY)
    draw_states(picture)
    draw_ways(picture)
    picture.save(path)
