"""The clauses and the definitions as a text."""

import collections
import textwrap

from headline.reached import CHAPTERS, chapter_of
from headline.words import kit_words, signs

WIDTH = 130
SHOWN_USERS = 2


def counts(reached, receiver):
    """How many definitions and lines there are, in all and by crate."""
    lines, code = reached.lines(), [item for item in reached.order if item.is_code]
    yield "%d definitions, %d lines without comments; %d of the definitions are types and constants of the code." % (len(reached.order), lines, len(code))
    if lines:
        theirs = reached.lines(receiver)
        yield "%d lines, %d %%, are the receiver's (%s)." % (theirs, 100 * theirs / lines, ", ".join(sorted(receiver)))
    for item in reached.not_opened:
        yield "Not opened: %s (%s:%d). %s" % ((item.name,) + item.place + (" ".join(line.lstrip("-/ ") for line in item.comment),))
    by_crate = collections.Counter()
    for item in reached.order:
        by_crate[item.crate] += len(item.code())
    yield "Lines by crate: %s." % ", ".join("%s %d" % found for found in by_crate.most_common())


def wrapped(text, indent=""):
    return textwrap.wrap(text, WIDTH, initial_indent=indent, subsequent_indent=indent)


def table(title, pairs):
    yield ""
    yield title
    for word, meaning in pairs:
        yield "    %-32s %s" % (word, meaning)


def users_of(page, item):
    """The first that name a definition, and how many others do."""
    users = [page.shown_user(user) for user in page.reached.users[item.path]]
    more = "" if len(users) <= SHOWN_USERS else " and %d others" % (len(users) - SHOWN_USERS)
    return ", ".join(users[:SHOWN_USERS]) + more


def rule_lines(page, item):
    """The rule of a definition, whole where it is the rule's first."""
    rule = page.rules.get(item.path)
    if rule:
        yield "    DEFINITIONS line %d: %s" % (rule.line, rule.title)
    if rule and page.first_of_rule(item):
        yield from (line for part in rule.text for line in wrapped(part.strip(), "      "))


def text_of(page):
    """The lines of the text of a page."""
    yield from (line for found in counts(page.reached, page.receiver) for line in wrapped(found))
    yield from table("How to read it:", signs())
    yield from table("Words of the kit:", kit_words(page.reached.kit))
    for comment, clauses in page.groups():
        yield ""
        yield from wrapped(comment)
        for clause in clauses:
            yield ""
            yield from clause.lines
    for number, item in enumerate(page.reached.order, 1):
        if page.begins_chapter(number):
            yield from ("", "==== " + CHAPTERS[chapter_of(item)][0])
        yield ""
        yield "[%d] %s   %s:%d" % ((number, item.name) + item.place)
        yield from wrapped("named by " + users_of(page, item), "    ")
        yield from rule_lines(page, item)
        yield from item.comment + item.lines
