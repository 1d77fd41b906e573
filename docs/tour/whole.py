"""Draws the whole: what each command reads and writes, from packets to lanes and back, and which commands are sums of others.

Its boxes are the rows of the table of commands in REFERENCE; nothing is computed.
"""

from picture.svg import COLOURS, Picture

WIDTH, HEIGHT = 960, 467
BOX, TALL = 132, 50
BLUE, GREY, RED, VIOLET = COLOURS["sync"], COLOURS["note"], COLOURS["lost"], "#7d3c98"
COLUMNS = (12, 213, 414, 615, 816)
TOP, BELOW = 118, 236
# What there is: its name, its file, its column, its row, and its colour.
PARTS = [
    ("packets", "*.pcap", 0, TOP, BLUE), ("payload words", "OUT.words", 1, TOP, BLUE), ("lane bits", "OUT.lane.I", 2, TOP, BLUE),
    ("damaged lanes", "OUT.damaged.lane.I", 3, TOP, RED), ("received words", "OUT.words", 4, TOP, BLUE),
    ("text listing", "FILE.txt", 0, BELOW, GREY), ("rule violations", "OUT.faults.csv", 1, BELOW, GREY), ("lane events", "OUT.events.csv", 2, BELOW, GREY),
    ("fault spans", "OUT.spans.csv", 3, BELOW, BLUE), ("received packets", "OUT.C.pcap", 4, BELOW, BLUE),
]
ALONG = [("burst", BLUE), ("stripe", BLUE), ("damage", RED), ("gather", BLUE)]
DOWN = [("check", 1, GREY), ("inspect", 2, GREY), ("join", 4, BLUE)]
# What a command of several is: its text, its first and last x, its height, its colour.
SUMS = [
    ("send = burst + stripe", 42, 516, 97, BLUE), ("receive = gather + join", 645, 942, 97, BLUE),
    ("link = send + damage + receive; it also lists each missing packet", 22, 952, 53, VIOLET),
]
BESIDE = [
    ("duplex", "two ends send to each other, and turn each other's channels off and on (OUT.a.C.pcap, OUT.b.C.pcap)"),
    ("resend", "the payload words of a plan over a link that loses, repeats and delays pieces of them (OUT.words)"),
    ("oobwrite", "the channel states of a plan as samples of three status lines (OUT.oob)"),
    ("oobread", "such samples as rows of a flow file (OUT.oob.flow)"),
]
BOLD, FIXED = ' font-weight="bold"', ' font-family="monospace" font-weight="bold"'


def draw_parts(picture):
    for name, file, column, top, colour in PARTS:
        x = COLUMNS[column]
        fill = {BLUE: "#eaf1f8", GREY: "#f4f6f7", RED: COLOURS["span"]}[colour]
        picture.box(x - 1, top - 1, BOX + 2, TALL + 2, colour)
        picture.box(x, top, BOX, TALL, fill)
        picture.text(x + BOX / 2, top + 21, name, anchor="middle", more=BOLD)
        picture.text(x + BOX / 2, top + 39, file, GREY, "middle", ' font-family="monospace" font-size="11"')


def draw_commands(picture):
    for (name, colour), x, to_x in zip(ALONG, COLUMNS, COLUMNS[1:]):
        picture.arrow(x + BOX + 2, TOP + 25, to_x - 2, TOP + 25, colour)
        picture.text((x + BOX + to_x) / 2 - 3, TOP + 18, name, colour, "middle", FIXED)
    for name, column, colour in DOWN:
        x = COLUMNS[column] + BOX / 2
        picture.arrow(x, TOP + TALL + 2, x, BELOW - 2, colour)
        picture.text(x + 8, (TOP + TALL + BELOW) / 2 + 4, name, colour, more=FIXED)
    picture.arrow(COLUMNS[4] + 36, TOP + TALL + 2, COLUMNS[3] + BOX - 30, BELOW - 2, BLUE)
    picture.text(COLUMNS[3] + BOX + 4, (TOP + TALL + BELOW) / 2 - 6, "join", BLUE, "middle", FIXED)
    left, right = (COLUMNS[0] + BOX - 30, BELOW - 3), (COLUMNS[1] + 24, TOP + TALL + 3)
    picture.arrow(*left, *right, GREY)
    picture.arrow(*right, *left, GREY)
    for place, name in enumerate(("list", "assemble")):
        picture.text(174 - 36 * place, TOP + TALL + 24 + 16 * place, name, GREY, "end", FIXED)


def draw_sums(picture):
    for text, x, to_x, y, colour in SUMS:
        picture.bent_line([(x, y + 9), (x, y), (to_x, y), (to_x, y + 9)], colour)
        picture.text((x + to_x) / 2, y - 6, text, colour, "middle", BOLD)
    picture.text(WIDTH / 2, 22, "generate draws a random plan, schedule and captures from a number, and runs link on them", VIOLET, "middle")


def draw_beside(picture):
    picture.line(12, 310, WIDTH - 12, 310, COLOURS["grid"])
    picture.text(12, 332, "Beside this chain", more=BOLD)
    for place, (name, text) in enumerate(BESIDE):
        picture.text(12, 352 + 19 * place, name, BLUE, more=FIXED)
        picture.text(100, 352 + 19 * place, text)
    for place, text in enumerate((
            "grey: a command that only looks. list, inspect, gather and receive read any lane file. link writes its received lanes as OUT.lane.I.",
            "gather of damaged lanes needs a second plan, with the row out,OUT.damaged: so it does not write over the payload words that burst wrote.")):
        picture.text(12, 438 + 15 * place, text, GREY, more=' font-size="11"')


def draw(folder, path):
    picture = Picture(WIDTH, HEIGHT)
    draw_sums(picture)
    draw_parts(picture)
    draw_commands(picture)
    draw_beside(picture)
    picture.save(path)
