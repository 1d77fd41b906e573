"""Draws what is proved and what is tested: the function `run` over files in memory and over the computer's, the library, and the tools.

Its boxes are the sections of PROVED; nothing is computed.
"""

from picture.svg import COLOURS, Picture

WIDTH, HEIGHT = 960, 356
GREEN, GREEN_FILL, GREY, GREY_FILL = "#1e8449", "#e9f7ef", COLOURS["note"], "#f4f6f7"
BOLD, SMALL = ' font-weight="bold"', ' font-size="11"'
# Each box: x, y, width, height, whether it is proved, its name, and its lines.
BOXES = [
    (330, 44, 300, 132, True, "run: all commands", ["every call returns, without a panic", "each status has its cause; each refusal its text", "link: exactly the packets that no span meets", "no burst on a channel that is off"]),
    (330, 208, 300, 76, True, "the layers below", ["checksums, bursts, framing, scrambler, codes,", "locks, deskew, packets: as they are defined"]),
    (24, 44, 250, 60, True, "files and output in memory", ["they return what was written (F, T)"]),
    (24, 116, 250, 60, False, "files of the computer", ["the same run over system calls"]),
    (686, 44, 250, 76, True, "C library", ["any pieces, any order: same events;", "misuse changes nothing"]),
    (686, 132, 250, 60, False, "the C caller", ["valid pointers; memory, threads, stack"]),
    (686, 208, 250, 76, False, "tools, Python model, examples", ["judge, probe, lanes, .. ; SystemVerilog;", "the launcher"]),
    (24, 208, 250, 76, False, "the definitions mean the rules", ["worked rows, a model from the pages,", "a reference outside"]),
]
LINES = [(274, 74, 330, 90, GREEN), (274, 146, 330, 130, GREY), (480, 208, 480, 178, GREEN), (632, 230, 684, 100, GREEN), (274, 246, 328, 246, GREY)]


def draw(folder, path):
    picture = Picture(WIDTH, HEIGHT)
    for x, y, to_x, to_y, colour in LINES:
        picture.arrow(x, y, to_x, to_y, colour, "" if colour == GREEN else "5 4")
    for x, y, width, height, is_proved, name, lines in BOXES:
        colour, fill = (GREEN, GREEN_FILL) if is_proved else (GREY, GREY_FILL)
        picture.box(x - 1, y - 1, width + 2, height + 2, colour)
        picture.box(x, y, width, height, fill)
        picture.text(x + 10, y + 21, name, colour, more=BOLD)
        for place, line in enumerate(lines):
            picture.text(x + 10, y + 41 + 19 * place, line)
    picture.text(12, 22, "Green: proved.", GREEN, more=BOLD)
    picture.text(130, 22, "Grey: tested.", GREY, more=BOLD)
    picture.text(236, 22, "An arrow goes to what is built on it.")
    picture.line(12, 304, WIDTH - 12, 304, COLOURS["grid"])
    picture.text(12, 324, "Trusted", more=BOLD)
    picture.text(84, 324, "the definitions; prover and compilers, the kit's crates, the system's C library, operating system and computer")
    picture.text(12, 344, "Not claimed", more=BOLD)
    picture.text(104, 344, "that memory suffices, speed, that another device follows this profile")
    picture.save(path)
