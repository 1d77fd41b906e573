"""The clauses and the definitions as one HTML page, whose names are links."""

import html
import re

from headline.names import WORD
from headline.reached import CHAPTERS, chapter_of
from headline.texts import counts
from headline.words import kit_words, signs

STYLE = """body { font: 15px/1.45 sans-serif; max-width: 72em; margin: 2em auto; padding: 0 1em }
pre { background: #f6f6f4; padding: .6em .8em; overflow-x: auto; white-space: pre-wrap }
h3 { margin: 1.6em 0 .2em } .place, .users { color: #555; font-size: 13px } .rule { border-left: 3px solid #9ab; padding-left: .8em; font-size: 14px }
pre .note { color: #4a6a4a } a { text-decoration: none } a:hover { text-decoration: underline }"""


def html_of(page):
    """The lines of the page."""
    yield "<!DOCTYPE html>"
    yield '<html lang="en"><head><meta charset="utf-8"><title>%s</title><style>%s</style></head><body>' % (escaped(page.title), STYLE)
    yield "<h1>%s</h1>" % escaped(page.title)
    yield from ("<p>%s</p>" % escaped(found) for found in counts(page.reached, page.receiver))
    yield from table("How to read it", signs())
    yield from table("Words of the kit", kit_words(page.reached.kit))
    for comment, clauses in page.groups():
        yield "<p>%s</p>" % escaped(comment)
        for clause in clauses:
            yield '<pre id="clause-%s">%s</pre>' % (clause.name, "\n".join(linked_clause(page, line) for line in clause.lines))
    for number, item in enumerate(page.reached.order, 1):
        if page.begins_chapter(number):
            yield "<h2>%s</h2>" % escaped(CHAPTERS[chapter_of(item)][0])
        yield from shown(page, number, item)
    yield "</body></html>"


def table(title, pairs):
    yield "<h2>%s</h2><table>" % escaped(title)
    yield from ("<tr><td><code>%s</code></td><td>%s</td></tr>" % (escaped(word), escaped(meaning)) for word, meaning in pairs)
    yield "</table>"


def shown(page, number, item):
    yield '<h3 id="%s">%d. %s</h3>' % (anchor(item), number, escaped(item.name))
    yield '<div class="place">%s:%d</div>' % (escaped(item.place[0]), item.place[1])
    yield '<div class="users">named by %s</div>' % ", ".join(user_link(page, user) for user in page.reached.users[item.path])
    rule = page.rules.get(item.path)
    if rule and page.first_of_rule(item):
        text = escaped(" ".join(line.strip() for line in rule.text))
        yield '<p class="rule" id="rule-%d">DEFINITIONS, line %d, <b>%s</b>: %s</p>' % (rule.line, rule.line, escaped(rule.title), text)
    elif rule:
        yield '<p class="rule">DEFINITIONS, line %d, <a href="#rule-%d"><b>%s</b></a></p>' % (rule.line, rule.line, escaped(rule.title))
    notes = ['<span class="note">%s</span>' % escaped(line) for line in item.comment]
    yield "<pre>%s</pre>" % "\n".join(notes + [linked(page, item, line) for line in item.lines])


def escaped(text):
    return html.escape(text, quote=False)


def anchor(item):
    return item.path


def user_link(page, user):
    if isinstance(user, str):
        return '<a href="#clause-%s">the clause %s</a>' % (user, escaped(user))
    return '<a href="#%s">%s</a>' % (anchor(user), escaped(user.name))


def linked(page, item, line):
    """A line of a definition with its names as links."""
    if re.match(r"\s*(--|//)", line):
        return '<span class="note">%s</span>' % escaped(line)
    return with_links(line, lambda word: page.leads(item).get(word))


def linked_clause(page, line):
    return with_links(line, page.clause_leads.get)


def with_links(line, lead_of):
    parts, at = [], 0
    for found in WORD.finditer(line):
        parts.append(escaped(line[at:found.start()]))
        lead, word = lead_of(found[0]), escaped(found[0])
        parts.append(word if lead is None else '<a href="#%s">%s</a>' % (anchor(lead), word))
        at = found.end()
    return "".join(parts) + escaped(line[at:])
