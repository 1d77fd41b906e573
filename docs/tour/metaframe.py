"""Draws a metaframe of one lane by its words, and one of its codes by its bits, from a lane that `send` wrote.

The script ends with an error if the lane does not have the Sync word and the code where they are drawn.
"""

from picture.svg import COLOURS, Picture
from reading.files import must_agree
from reading.lane_bits import bits_of, sync_words
from reading.plans import CODE, Plan

PLAN, LANE, METAFRAME, SLOT = "damaged.plan", 0, 4, 224
LEFT, WORD, TOP, TALL = 12, 27, 74, 40
BIT, CODE_TOP = 12.8, 214
FRAMING = {"Sync": COLOURS["sync"], "State": "#5d6d7e", "Skip": "#aab7b8", "Diagnostic": "#7d3c98"}
PAYLOAD = COLOURS["lane"]


def roles_of(plan):
    """The words of a metaframe by their roles."""
    payload = plan.metaframe - 3 - plan.skips
    return ["Sync", "State"] + ["Skip"] * plan.skips + ["payload"] * payload + ["Diagnostic"]


def draw_words(picture, plan, roles, begin):
    for place, role in enumerate(roles):
        x = LEFT + WORD * place
        picture.box(x, TOP, WORD - 1, TALL, FRAMING.get(role, PAYLOAD))
        picture.text(x + WORD / 2, TOP + 25, "%d" % place, "white" if role in FRAMING else COLOURS["ink"], "middle")
    picture.text(LEFT, TOP - 8, "bit %d" % begin, COLOURS["note"])
    picture.text(LEFT + WORD * len(roles), TOP - 8, "the next at bit %d" % (begin + CODE * len(roles)), COLOURS["note"], "end")
    texts = [("Sync", "Sync: 78F678F678F678F6, as it is"), ("State", "Scrambler State: the state of the scrambler, as it is"),
             ("Skip", "Skip, scrambled"), ("Diagnostic", "Diagnostic, scrambled: health, and the CRC32 of the metaframe")]
    for place, (role, text) in enumerate(texts):
        x, y = LEFT + 330 * (place % 2), TOP + TALL + 22 + 20 * (place // 2)
        picture.box(x, y - 11, 14, 14, FRAMING[role])
        picture.text(x + 20, y, text)
    count = roles.count("payload")
    picture.text(LEFT, TOP + TALL + 62, "light: %d payload words, scrambled; of the stream one word in %d is on this lane" % (count, plan.lanes))


def draw_code(picture, code, at, word):
    parts = [(0, 1, "inverted", COLOURS["lost"]), (1, 3, "header", COLOURS[2]), (3, CODE, "64 bits of payload, bit 63 first", COLOURS[1])]
    for first, end, name, colour in parts:
        x = LEFT + BIT * first
        picture.box(x, CODE_TOP, BIT * (end - first) - 1, 22, colour)
        for bit in range(first, end):
            picture.text(LEFT + BIT * bit + BIT / 2 - 0.5, CODE_TOP + 16, code[bit], "white", "middle")
        picture.text(x + (150 if end == CODE else 0), CODE_TOP + (54 if name == "header" else 38), name, colour)
    picture.text(LEFT, CODE_TOP - 10, "The code of word %d, slot %d of the stream, from bit %d on: header 10 is a control word, 01 a data word" % (word, SLOT, at))


def draw(folder, path):
    folder.run("send", PLAN)
    plan = Plan(folder, PLAN)
    bits = bits_of(folder.content("damaged.lane.%d" % LANE))
    roles, begin = roles_of(plan), CODE * plan.metaframe * METAFRAME
    must_agree("the words of a metaframe", len(roles), plan.metaframe)
    must_agree("a Sync word at bit %d" % begin, begin in sync_words(bits), True)
    word = 2 + plan.skips
    at = begin + CODE * word
    code = bits[at:at + CODE]
    must_agree("the header of slot %d" % SLOT, code[1:3], "10")
    picture = Picture(LEFT + WORD * len(roles) + LEFT, CODE_TOP + 66)
    picture.text(LEFT, 20, "Metaframe %d of lane %d, as sent: %d words of %d bits" % (METAFRAME, LANE, len(roles), CODE))
    picture.text(LEFT, 38, "All lanes begin a metaframe at the same word.", COLOURS["note"])
    draw_words(picture, plan, roles, begin)
    draw_code(picture, code, at, word)
    picture.save(path)
