"""What checks/documents.sh asks of the size and the sentences of the pages, by checks/pages.csv, which has a row for each page:

    page      its path, or that of a header, of which only the size is looked at
    reader    the one reader for whom it is
    most      the most words that it may have: tokens with a letter or a digit, commands and their output among them

A page above its number fails, and so do all together above ALL: take words out, or argue for a new number in the commit. A page without
a row, or a row without a page, fails. So does a run of REPEAT words that two pages have outside commands and output.

Three forms of sentences fail, since English has plainer ones: 'alone' behind a noun ('only' before it), 'is no X' ('is not an X'), and a
sentence that begins with What, That, Whether or Of, and so has a clause for its subject.
"""

import csv
import glob
import os
import re

from lib.wording import CODE, COMMENT, FENCE, LINK, blank, prose_of, sentences_of

REPEAT = 12
# The most words of all pages and headers together.
ALL = 47000
ALONE = re.compile(r"\b(?!(?:leaves?|left|let|it|he|they|these|those|one)\b)[\w)-]+ alone\b")
IS_NO = re.compile(r"\b(?<!here )(?:is|are|was|were) no (?!longer\b|more\b|less\b|fewer\b)\w+")
BEGINS = {"What", "That", "Whether", "Of"}


def words_in(text):
    return [word for word in text.split() if re.search(r"\w", word)]


def forms_in(text):
    """The places of a page with these forms: the number of the line, and its words."""
    prose = "\n".join("" if line.startswith("#") else line for line in prose_of(text).split("\n"))
    for form in (ALONE, IS_NO):
        for found in form.finditer(prose):
            yield prose.count("\n", 0, found.start()) + 1, found[0]
    for number, words in sentences_of(prose):
        if len(words) > 3 and words[0].strip("*") in BEGINS and not words[-1].endswith("?"):
            yield number, " ".join(words[:5]) + " .."


def runs_of(text):
    """Each run of REPEAT words of a page's running text with its place, in small letters and without signs."""
    text = LINK.sub(r"\1", CODE.sub(lambda found: found[0].strip("`"), COMMENT.sub(blank, FENCE.sub(blank, text))))
    words = []
    for number, line in enumerate(text.split("\n"), 1):
        if not line.lstrip().startswith("#"):
            words += [(re.sub(r"\W", "", word).lower(), number) for word in words_in(line)]
    for first in range(len(words) - REPEAT + 1):
        run = words[first:first + REPEAT]
        yield tuple(word for word, _ in run), run[0][1]


def repeats_in(text, known):
    """The runs of a page that are known, one for each stretch of them: the number of the line, the words, and the page that has them."""
    last = None
    for place, (run, number) in enumerate(runs_of(text)):
        if run in known:
            if last is None or place > last + 1:
                yield number, "%s .. (%s)" % (" ".join(run[:6]), known[run])
            last = place


def told(what, found):
    return [what + "".join("\n  line %d: %s" % it for it in found)] if found else []


def faults_of(row, text, known):
    """What is wrong with a page, beside the runs of words that are known from the pages above it."""
    words = len(words_in(text))
    if words > int(row["most"]):
        yield "%d words, at most %s" % (words, row["most"])
    if row["page"].endswith(".md"):
        yield from told("forms of sentences", list(forms_in(text)))
        yield from told("runs of %d words that another page has" % REPEAT, list(repeats_in(text, known)))


def texts_in(top):
    """The pages and headers, with the text of interlaken(3), by their paths."""
    paths = glob.glob(os.path.join(top, "**", "*.md"), recursive=True) + glob.glob(os.path.join(top, "include", "*.*"))
    texts = {}
    for path in paths:
        with open(path, encoding="utf-8") as file:
            texts[os.path.relpath(path, top)] = file.read()
    return texts


def check_pages(tally, top):
    with open(os.path.join(top, "checks", "pages.csv"), encoding="utf-8", newline="") as file:
        rows = list(csv.DictReader(file))
    texts, known = texts_in(top), {}
    for row in rows:
        text = texts.get(row["page"])
        tally.count("size and sentences of " + row["page"], "there is no such page" if text is None else "; ".join(faults_of(row, text, known)))
        if text is not None and row["page"].endswith(".md"):
            for run, _ in runs_of(text):
                known.setdefault(run, row["page"])
    lacking = sorted(texts.keys() - {row["page"] for row in rows})
    tally.count("checks/pages.csv", "it has no row of " + ", ".join(lacking) if lacking else "")
    words = sum(len(words_in(text)) for text in texts.values())
    tally.count("all pages and headers", "%d words, at most %d" % (words, ALL) if words > ALL else "")
