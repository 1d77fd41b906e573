"""The definitions that clauses reach, in chapters, and in each chapter in the order in which a reader needs them."""

import re

from reading.files import Refused

from headline.names import IS_NAME, WORD
from headline.words import pairs_in

CHAPTERS = [(title, crates.split()) for title, crates in pairs_in("chapters.csv")]


def chapter_of(item):
    """The number of the chapter of a definition: that of its crate, or the last."""
    return next((number for number, (_, crates) in enumerate(CHAPTERS) if item.crate in crates), len(CHAPTERS) - 1)


class Reached:
    """Definitions by chapters, and there in the order in which they are first named, each followed by those that it names; who names each; the definitions
    that are not opened; and the words of the kit."""

    def __init__(self, names, closed):
        self.names, self.closed = names, closed
        self.order, self.users, self.not_opened, self.kit = [], {}, [], set()

    def follow_clause(self, clause, scope):
        for word in WORD.findall(re.sub(r"//.*", "", "\n".join(clause.lines))):
            if IS_NAME.match(word):
                path = self.names.meaning(word, scope)
                if path:
                    self.visit(self.names.item_of(path) or path, clause.name)

    def visit(self, lead, user):
        if isinstance(lead, str):
            self.kit.add(lead)
            return
        is_new = lead.path not in self.users
        users = self.users.setdefault(lead.path, [])
        if user not in users:
            users.append(user)
        if is_new and lead.name in self.closed:
            self.not_opened.append(lead)
        elif is_new:
            self.order.append(lead)
            for _, next_lead in self.names.words_of(lead):
                if next_lead is not None and next_lead is not lead:
                    self.visit(next_lead, lead)

    def lines(self, crates=None):
        """How many lines the definitions have, or those of these crates, without comments."""
        return sum(len(item.code()) for item in self.order if crates is None or item.crate in crates)


def reach(names, clauses, scope, closed):
    known = {item.name for item in names.items.values()}
    for name in closed:
        if name not in known:
            raise Refused("--closed %s: there is no such definition" % name)
    reached = Reached(names, closed)
    for clause in clauses:
        reached.follow_clause(clause, scope)
    reached.order.sort(key=chapter_of)
    return reached
