"""Draws the way from a dump of a device's lanes to its first fault, by the tools of DEVICE; its boxes are the steps of that page."""

from picture.svg import COLOURS, Picture

WIDTH, HEIGHT = 960, 256
BLUE, GREY, RED = COLOURS["sync"], COLOURS["note"], COLOURS["lost"]
BOLD, FIXED, SMALL = ' font-weight="bold"', ' font-family="monospace" font-weight="bold"', ' font-family="monospace" font-size="11"'
BOX, TALL, TOP, BELOW = 160, 52, 62, 176
COLUMNS = (12, 272, 532, 788)
# What there is: its name, its file, its column, its height, and its colour.
PARTS = [
    ("dump of the device", "dump.I.txt, VCD, ..", 0, TOP, GREY), ("lane bits", "OUT.lane.I", 1, TOP, BLUE), ("plan of the link", "found.plan", 2, TOP, BLUE),
    ("findings", "OUT.judged.csv", 3, TOP, RED), ("received packets", "OUT.C.pcap", 2, BELOW, BLUE), ("packets that differ", "printed", 3, BELOW, RED),
    ("what the bench sent", "dump.C.pcap", 1, BELOW, GREY),
]
# The tools: the name, the start and the end of the arrow, the place of the name, and its colour.
TOOLS = [
    ("lanes import", (174, TOP + 26), (270, TOP + 26), (222, TOP + 18), BLUE), ("probe", (434, TOP + 26), (530, TOP + 26), (482, TOP + 18), BLUE),
    ("judge", (694, TOP + 26), (786, TOP + 26), (740, TOP + 18), RED), ("receive", (612, TOP + 54), (612, BELOW - 2), (640, BELOW - 27), BLUE),
    ("packets", (694, BELOW + 26), (786, BELOW + 26), (740, BELOW + 18), RED),
]


def draw(folder, path):
    picture = Picture(WIDTH, HEIGHT)
    picture.text(12, 24, "From a dump to the first fault.", more=BOLD)
    picture.text(240, 24, "An arrow is a tool, or the command receive. Grey lines: what judge and packets also read.", GREY)
    for name, file, column, top, colour in PARTS:
        x, fill = COLUMNS[column], {BLUE: "#eaf1f8", GREY: "#f4f6f7", RED: COLOURS["span"]}[colour]
        picture.box(x - 1, top - 1, BOX + 2, TALL + 2, colour)
        picture.box(x, top, BOX, TALL, fill)
        picture.text(x + BOX / 2, top + 22, name, anchor="middle", more=BOLD)
        picture.text(x + BOX / 2, top + 40, file, GREY, "middle", SMALL)
    for name, start, end, at, colour in TOOLS:
        picture.arrow(*start, *end, colour)
        picture.text(*at, name, colour, "middle", FIXED)
    # Judge and receive need the lanes beside the plan; packets needs what was sent.
    for points in ([(352, TOP - 2), (352, 44), (868, 44), (868, TOP - 3)], [(434, BELOW + 40), (482, BELOW + 40), (482, 240), (868, 240), (868, BELOW + 55)]):
        picture.bent_line(points[:-1], GREY)
        picture.arrow(*points[-2], *points[-1], GREY)
    picture.text(262, TOP + 80, "probe writes the plan that fits;", GREY)
    picture.text(262, TOP + 97, "add what you know of the device", GREY)
    picture.text(12, TOP + 80, "any form, order and polarity", GREY)
    picture.text(948, TOP + 70, "by lane and bit; status 1", GREY, "end")
    picture.save(path)
