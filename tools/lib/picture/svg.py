"""The pages of the pictures: boxes, lines, polygons and texts of an SVG file, and places for texts that do not overlap."""

import re
from html import escape

COLOURS = {"sync": "#1b4f72", "skew": "#d5d8dc", "lane": "#eaf2f8", "flip": "#c0392b", "idle": "#d5d8dc", 1: "#2e86c1", 2: "#28b463", "lost": "#c0392b", "span": "#fadbd8",
           "grid": "#d5d8dc", "note": "#566573", "ink": "#17202a", "fold": "#f4f6f7", "edge": "#f1948a", "dark": "#6c3483"}
# The colours of channels in the order of their numbers, over again after the last.
CHANNELS = ["#2e86c1", "#28b463", "#af7ac5", "#d68910", "#117a65", "#5d6d7e", "#884ea0", "#7d6608", "#1f618d", "#16a085"]
# The widths of characters in the font size of the pictures, in a wide font; that of all others is WIDE.
WIDTHS = {character: width for width, characters in ((3.5, "ijl"), (3.9, " .,:;"), (4.9, "ftr()-"), (6.5, "sckxyvz"), (10.2, "w"), (11.7, "m")) for character in characters}
WIDE = 7.7
LINE = 16


def plain(text):
    """A text as it stands in an SVG file; characters that none may have are question marks."""
    return escape(re.sub("[^\t\x20-\ud7ff\ue000-\ufffd\U00010000-\U0010ffff]", "?", text), False)


def channel_colours(channels):
    return {channel: CHANNELS[place % len(CHANNELS)] for place, channel in enumerate(sorted(channels))}


def length_of(text):
    return sum(WIDTHS.get(character, WIDE) for character in text)


class Picture:
    def __init__(self, width, height):
        self.width = width
        self.lines = ['<svg xmlns="http://www.w3.org/2000/svg" width="%d" height="%d" viewBox="0 0 %d %d" font-family="sans-serif" font-size="12">' % (width, height, width, height),
                      '<rect width="%d" height="%d" fill="white"/>' % (width, height)]

    def box(self, x, y, width, height, fill, title="", kind=""):
        """A box; `title` is what a viewer shows over it, and `kind` the class of the element."""
        head = '<rect%s x="%.1f" y="%.1f" width="%.1f" height="%.1f" fill="%s"' % (' class="%s"' % kind if kind else "", x, y, width, height, fill)
        self.lines.append(head + ("><title>%s</title></rect>" % plain(title) if title else "/>"))

    def frame(self, x, y, width, height, colour, title="", kind=""):
        """A box of which only the edge has a colour, as of what is absent."""
        head = '<rect%s x="%.1f" y="%.1f" width="%.1f" height="%.1f" fill="white" fill-opacity="0.7" stroke="%s" stroke-width="1.8"' % (
            ' class="%s"' % kind if kind else "", x, y, width, height, colour)
        self.lines.append(head + ("><title>%s</title></rect>" % plain(title) if title else "/>"))

    def line(self, x, y, to_x, to_y, colour, dashes=""):
        self.lines.append('<line x1="%.1f" y1="%.1f" x2="%.1f" y2="%.1f" stroke="%s"%s/>' % (x, y, to_x, to_y, colour, ' stroke-dasharray="%s"' % dashes if dashes else ""))

    def bent_line(self, points, colour):
        self.lines.append('<polyline points="%s" fill="none" stroke="%s" stroke-width="1.5"/>' % (" ".join("%.1f,%.1f" % point for point in points), colour))

    def area(self, points, colour):
        """A polygon that lets what lies under it be seen."""
        self.lines.append('<polygon points="%s" fill="%s" fill-opacity="0.4"/>' % (" ".join("%.1f,%.1f" % point for point in points), colour))

    def arrow(self, x, y, to_x, to_y, colour, dashes=""):
        """A line with a head at its end, which points along it."""
        length = ((to_x - x) ** 2 + (to_y - y) ** 2) ** 0.5
        along_x, along_y = (to_x - x) / length, (to_y - y) / length
        corners = [(to_x, to_y)] + [(to_x - 8 * along_x - side * along_y, to_y - 8 * along_y + side * along_x) for side in (3.5, -3.5)]
        self.line(x, y, to_x, to_y, colour, dashes)
        self.lines.append('<polygon points="%s" fill="%s"/>' % (" ".join("%.1f,%.1f" % corner for corner in corners), colour))

    def text(self, x, y, text, colour="#17202a", anchor="start", more="", title=""):
        titled = plain(text) + ("<title>%s</title>" % plain(title) if title else "")
        self.lines.append('<text x="%.1f" y="%.1f" fill="%s" text-anchor="%s"%s>%s</text>' % (x, y, colour, anchor, more, titled))

    def clear_text(self, x, y, text, colour, anchor):
        """A text with a white edge, which is read over lines."""
        self.text(x, y, text, colour, anchor, ' stroke="white" stroke-width="3" paint-order="stroke"')

    def fold(self, x, y, width, height, text, title):
        """A part of an axis that is left out, with a short text in its middle."""
        self.lines.append('<rect class="fold" x="%.1f" y="%.1f" width="%.1f" height="%.1f" fill="%s" fill-opacity="0.7"><title>%s</title></rect>' % (x, y, width, height, COLOURS["fold"], plain(title)))
        for side in (x, x + width):
            self.line(side, y, side, y + height, COLOURS["grid"], "2 3")
        if text:
            self.text(x + width / 2, y + height / 2 + 4, text, COLOURS["note"], "middle")

    def save(self, path):
        with open(path, "w", encoding="utf-8") as file:
            file.write("\n".join(self.lines + ["</svg>", ""]))


class Labels:
    """Texts over or under a row, each in the first line in which none that was placed before is in its way."""

    def __init__(self, left, right):
        self.left, self.right = left, right
        self.lines, self.texts = [], []

    def place(self, x, text, colour=COLOURS["ink"], anchor="start"):
        """Places a text that begins or ends at `x`; if it would leave the picture it is moved."""
        width = length_of(text)
        begin = x - width if anchor == "end" else x - width / 2 if anchor == "middle" else x
        begin = max(self.left, min(begin, self.right - width))
        number = next((n for n, taken in enumerate(self.lines) if all(begin >= t or s >= begin + width for s, t in taken)), len(self.lines))
        if number == len(self.lines):
            self.lines.append([])
        self.lines[number].append((begin - 6, begin + width + 6))
        at = begin + (width if anchor == "end" else width / 2 if anchor == "middle" else 0)
        self.texts.append((at, number, text, colour, anchor))

    def height(self):
        return LINE * len(self.lines)

    def draw(self, picture, y, step=LINE):
        """Draws the texts, the first line's at `y` and each further one `step` below."""
        for x, number, text, colour, anchor in self.texts:
            picture.clear_text(x, y + step * number, text, colour, anchor)

    def draw_backed(self, picture, y):
        """The same over white boxes, which interrupt the lines behind the texts."""
        for x, number, text, _, anchor in self.texts:
            width = length_of(text)
            left = x - width if anchor == "end" else x - width / 2 if anchor == "middle" else x
            picture.box(left - 2, y + LINE * number - 11, width + 4, 14, "white")
        self.draw(picture, y)


def wrapped(text, width):
    """A legend in lines that a picture of this width has room for."""
    lines = [""]
    for part in text.split("; "):
        joined = lines[-1] + ("; " if lines[-1] else "") + part
        if length_of(joined) <= width or not lines[-1]:
            lines[-1] = joined
        else:
            lines[-1] += ";"
            lines.append(part)
    return lines
