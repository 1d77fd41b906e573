"""Draws the handles of the C library: what each takes, and what comes out of it; its boxes are the parts of interlaken.h."""

from picture.svg import COLOURS, Picture

WIDTH, HEIGHT = 960, 330
BLUE, GREEN, RED, GREY = COLOURS["sync"], "#1e8449", COLOURS["lost"], COLOURS["note"]
BOLD = ' font-weight="bold"'
X, BOX, TALL, TOP, STEP = 390, 180, 34, 56, 46
# Each handle: its name, its colour, what it takes, and what comes out.
HANDLES = [
    ("transmitter", GREEN, "packets, states of channels, control words of the far end", "bytes or bits of each lane, a word at a time"),
    ("damage", RED, "bytes of lanes; rows that flip bits or make them 0", "the bytes that arrive"),
    ("receiver", BLUE, "bytes or bits of lanes, in any pieces and order", "packets, drops, fault spans, control words"),
    ("inspector", BLUE, "bytes or bits of lanes, in any pieces and order", "lane events, as of inspect; reports of lanes"),
    ("gatherer", BLUE, "bytes or bits of lanes, in any pieces and order", "words and breaks with their places, as of gather"),
    ("checker", BLUE, "words, as of a gatherer; control words of the far end", "broken rules, as of check"),
]


def draw(folder, path):
    picture = Picture(WIDTH, HEIGHT)
    picture.text(12, 24, "Six handles.", more=BOLD)
    picture.text(100, 24, "new makes one of the text of a plan (damage: of a number of lanes). One call at a time; free ends it.")
    picture.text(X - 40, 46, "takes", GREY, "end")
    picture.text(X + BOX + 40, 46, "gives", GREY)
    for place, (name, colour, taken, given) in enumerate(HANDLES):
        y = TOP + place * STEP
        picture.box(X - 1, y - 1, BOX + 2, TALL + 2, colour)
        picture.box(X, y, BOX, TALL, "white")
        picture.text(X + BOX / 2, y + 22, name, colour, "middle", BOLD)
        picture.text(X - 42, y + 21, taken, anchor="end")
        picture.arrow(X - 36, y + 17, X - 2, y + 17, colour)
        picture.arrow(X + BOX + 2, y + 17, X + BOX + 36, y + 17, colour)
        picture.text(X + BOX + 42, y + 21, given)
    picture.save(path)
