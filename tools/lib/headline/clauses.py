"""The clauses of a public function, each with the comment above its group."""

import os
import re

from reading.files import Refused

from headline.items import Scope, lines_of, read_use

CLAUSE = re.compile(r"    (requires|ensures) (\w+) ")


class Clause:
    """The name of a clause, the comment of its group, and its lines."""

    def __init__(self, name, comment, lines):
        self.name, self.comment, self.lines = name, comment, lines


def read_clauses(top, place, function):
    """The named clauses of a function, and what the names in them mean."""
    path = os.path.join(top, place)
    if not os.path.isfile(path):
        raise Refused("%s: there is no such file" % place)
    lines, scope = lines_of(path), Scope(place)
    for line in lines:
        if line.startswith("ghost use "):
            read_use(line[len("ghost "):].rstrip(";"), scope, {})
    first = next((at for at, line in enumerate(lines) if re.match(r"pub fn %s\b" % re.escape(function), line)), None)
    if first is None:
        raise Refused("%s: there is no public function %s" % (place, function))
    return list(clauses_in(lines[first:])), scope


def clauses_in(lines):
    comment, clause = [], None
    for line in lines:
        found = CLAUSE.match(line)
        if line.startswith("{"):  # the body
            return
        if found:
            clause = Clause(found[2], list(comment), [line.strip()])
            yield clause
        elif line.strip().startswith("//"):
            comment.append(line.strip()[2:].strip())
        elif not line.strip():
            comment, clause = [], None
        elif clause:
            clause.lines.append(line[4:])
