"""What checks/documents.sh finds in the words of the pages by lists: words that the glossary replaces, terms with a second name,
sentences that are too long, names of pages that are not links, and links that lead nowhere.

The lists are in documents.words, with a line for each entry and empty lines and lines of '#' between them:

    page PATH          a page whose words are looked at
    sentence NUMBER    the most words of a sentence
    word OLD = NEW     in no page there is OLD: NEW says it
    term OLD = NEW     the same for a second name of a thing whose name is NEW
    keep TEXT          in this text an old word stays, as in a name

Code, in blocks and between backquotes, and what a tool wrote between <!-- NAME --> and <!-- /NAME --> is not looked at. An old
word that begins with a small letter is looked for with a capital one too, and each also with an '-s' at its end.
"""

import os
import re

FENCE = re.compile(r"^ *```.*?^ *```$", re.M | re.S)
CODE = re.compile(r"`[^`\n]*`")
LINK = re.compile(r"!?\[([^\]]*)\]\([^)]*\)")
TARGET = re.compile(r"\]\((?!https?:)([^)\s]+)\)")
MADE = re.compile(r"^<!-- (\w+) -->$.*?^<!-- /\1 -->$", re.M | re.S)
COMMENT = re.compile(r"<!--.*?-->", re.S)
# A page between backquotes, or one of docs by its bare name.
PAGE_IN_CODE = re.compile(r"`(?:[\w.]+/)*(?:README|[A-Z_]{4,})\.md(?:#[\w-]+)?`")
SENTENCE_END = re.compile(r"(?<=[.!?])\)?\s+(?=[A-Z(`*\[\d])")


class Lists:
    """The lists of documents.words."""

    def __init__(self, path):
        self.pages, self.most, self.old, self.kept = [], None, [], []
        with open(path, encoding="utf-8") as file:
            for number, line in enumerate(file, 1):
                line = line.strip()
                if line and not line.startswith("#"):
                    self.add(line, "%s, line %d" % (path, number))

    def add(self, line, at):
        kind, _, rest = line.partition(" ")
        if kind == "page":
            self.pages.append(rest)
        elif kind == "sentence":
            self.most = int(rest)
        elif kind == "keep":
            self.kept.append(rest)
        elif kind in ("word", "term") and " = " in rest:
            old, new = rest.split(" = ")
            self.old.append((old, new, re.compile(r"(?<![\w-])%s(?![\w-])" % expression(old), re.M)))
        else:
            raise ValueError("%s: no entry: %s" % (at, line))


def expression(old):
    """Matches an old word, or several across an end of a line."""
    first = "[%s%s]" % (old[0], old[0].upper()) if old[0].islower() else re.escape(old[0])
    return first + r"\s+".join(re.escape(part) for part in old[1:].split(" ")) + "s?"


def blank(found):
    """As many ends of lines as a part of a page has."""
    return "\n" * found[0].count("\n")


def prose_of(text):
    """The text without code and comments, in as many lines as before; a link is its words."""
    text = COMMENT.sub(blank, FENCE.sub(blank, MADE.sub(blank, text)))
    return LINK.sub(r"\1", CODE.sub("X", text))


def sentences_of(prose):
    """Each sentence with the number of its line: of paragraphs, points of lists, and cells of tables."""
    block, first = [], 0
    for number, line in enumerate(prose.split("\n") + [""], 1):
        if not line.strip() or line.lstrip().startswith(("- ", "|", "#")) or re.match(r"\s*\d+\. ", line):
            yield from cut(block, first)
            block, first = [], number
        if line.lstrip().startswith("|"):
            for cell in line.strip().strip("|").split("|"):
                yield from cut([cell], number)
        elif line.strip():
            first = first if block else number
            block.append(line.strip())


def cut(lines, number):
    for sentence in SENTENCE_END.split(" ".join(lines)):
        yield number, [word for word in sentence.split() if re.search(r"\w", word)]


def line_at(text, place):
    return text.count("\n", 0, place) + 1


def old_words(prose, lists):
    for kept in lists.kept:
        prose = prose.replace(kept, "X" * len(kept))
    for old, new, pattern in lists.old:
        for found in pattern.finditer(prose):
            yield "line %d: '%s', which is: %s" % (line_at(prose, found.start()), " ".join(found[0].split()), new)


def long_sentences(prose, lists):
    for number, words in sentences_of(prose):
        if len(words) > lists.most:
            yield "line %d: a sentence of %d words: %s .." % (number, len(words), " ".join(words[:6]))


def bare_pages(text):
    """Names of pages between backquotes, where a link would lead to them."""
    text = FENCE.sub(blank, MADE.sub(blank, text))
    for found in PAGE_IN_CODE.finditer(text):
        yield "line %d: %s is no link" % (line_at(text, found.start()), found[0])


def anchors_in(page):
    """The anchors of the headings of a page."""
    with open(page, encoding="utf-8") as file:
        heads = re.findall(r"^#+ (.*)$", FENCE.sub(blank, file.read()), re.M)
    return {re.sub(r"[^\w -]", "", LINK.sub(r"\1", head).lower()).replace(" ", "-") for head in heads}


def dead_links(text, page):
    """Links to files that do not exist, or to headings that their page has not."""
    text = CODE.sub("X", FENCE.sub(blank, text))
    for found in TARGET.finditer(text):
        path, _, anchor = found[1].partition("#")
        target = os.path.normpath(os.path.join(os.path.dirname(page), path)) if path else page
        if not os.path.exists(target):
            yield "line %d: there is no %s" % (line_at(text, found.start()), found[1])
        elif anchor and anchor not in anchors_in(target):
            yield "line %d: %s has no heading for #%s" % (line_at(text, found.start()), path or "the page", anchor)


def faults_of(page, lists):
    with open(page, encoding="utf-8") as file:
        text = file.read()
    prose = prose_of(text)
    return [*old_words(prose, lists), *long_sentences(prose, lists), *bare_pages(text), *dead_links(text, page)]


def check_words(tally, top):
    """Counts each page of the list."""
    lists = Lists(os.path.join(top, "checks", "documents.words"))
    for page in lists.pages:
        tally.count("words of " + page, "\n  ".join(faults_of(os.path.join(top, page), lists)))
    tally.count("lists of words", "" if lists.pages and lists.old and lists.most else "documents.words lacks pages, words or the length of sentences")
