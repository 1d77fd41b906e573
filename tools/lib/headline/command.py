"""What tools/headline does."""

import os

from reading.ending import Options
from reading.files import Refused

from headline.clauses import read_clauses
from headline.items import Item, read_items
from headline.names import Names, Unresolved
from headline.pages import html_of
from headline.reached import chapter_of, reach
from headline.rules import read_rules, rules_of
from headline.texts import text_of

TOP = os.path.dirname(os.path.dirname(os.path.dirname(os.path.dirname(os.path.realpath(__file__)))))
RUN = "crates/interlaken/src/top.rt:run"
# The delivery theorem.
CLAUSES = ["delivers", "delivers_clean", "links_off"]
# The grammar of words, and that of plans and their inputs: docs/REFERENCE.md has both.
CLOSED = ["request_of", "linked_in"]
RECEIVER = {"lock_model", "epoch_model", "receive_model"}


class Page:
    """Clauses, with the definitions that they reach and the rules of these."""

    def __init__(self, title, clauses, scope, reached, rules, receiver):
        self.title, self.clauses, self.reached, self.receiver = title, clauses, reached, receiver
        self.rules = rules_of(rules, reached)
        self.numbers = {item.path: number for number, item in enumerate(reached.order, 1)}
        leads = ((name, self.printed(path)) for name, path in scope.imported.items())
        self.clause_leads = {name: item for name, item in leads if item}
        self.known_leads = {}

    def groups(self):
        """The clauses by the comment that they have together."""
        groups = []
        for clause in self.clauses:
            comment = " ".join(clause.comment)
            if not groups or groups[-1][0] != comment:
                groups.append((comment, []))
            groups[-1][1].append(clause)
        return groups

    def printed(self, lead):
        """The definition of a full name, or a definition, if it is on the page."""
        try:
            item = lead if isinstance(lead, Item) else self.reached.names.item_of(lead)
        except Unresolved:
            return None
        return item if item and item.path in self.numbers else None

    def leads(self, item):
        if item.path not in self.known_leads:
            pairs = ((word, self.printed(lead)) for word, lead in self.reached.names.words_of(item) if lead is not None)
            self.known_leads[item.path] = {word: lead for word, lead in pairs if lead and lead is not item}
        return self.known_leads[item.path]

    def begins_chapter(self, number):
        """Whether definition number `number`, counted from 1, is the first of its chapter."""
        order = self.reached.order
        return number == 1 or chapter_of(order[number - 1]) != chapter_of(order[number - 2])

    def first_of_rule(self, item):
        rule = self.rules[item.path]
        return next(it for it in self.reached.order if self.rules.get(it.path) is rule) is item

    def shown_user(self, user):
        return "the clause %s" % user if isinstance(user, str) else "[%d] %s" % (self.numbers[user.path], user.name)


def page_of(top, function, clause_names, closed):
    place, _, name = function.partition(":")
    clauses, scope = read_clauses(top, place, name)
    by_name = {clause.name: clause for clause in clauses}
    for wanted in clause_names:
        if wanted not in by_name:
            raise Refused("%s has no clause %s" % (function, wanted))
    names = Names(*read_items(top))
    chosen = [clause for clause in clauses if clause.name in clause_names]
    try:
        reached = reach(names, chosen, scope, closed)
    except Unresolved as error:
        raise Refused(error)
    return Page("%s: %s" % (name, ", ".join(clause.name for clause in chosen)), chosen, scope, reached, read_rules(top), RECEIVER)


def main(words):
    parser = Options(prog="headline", description="Prints clauses of a function, in words and as they stand, and then each definition that they reach, in the order in which a reader needs it.")
    parser.add_argument("--html", action="store_true", help="prints one HTML page, whose names are links both ways")
    parser.add_argument("--function", default=RUN, metavar="FILE:NAME", help="the function (%(default)s)")
    parser.add_argument("--closed", nargs="+", default=CLOSED, metavar="NAME", help="definitions that are named and not opened (%s)" % " ".join(CLOSED))
    parser.add_argument("--top", default=TOP, metavar="FOLDER", help="the checkout (this one)")
    parser.add_argument("clauses", nargs="*", default=CLAUSES, metavar="CLAUSE", help="clauses of the function (%s)" % " ".join(CLAUSES))
    options = parser.parse_args(words)
    page = page_of(options.top, options.function, options.clauses, options.closed)
    for line in (html_of if options.html else text_of)(page):
        print(line)
    return 0
