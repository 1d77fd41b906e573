"""Finds definitions of crates/*/specs/*.antt that stand twice: two of the same text, up to the names of bound variables. A name that
another definition has counts by what it means, so two names for one thing are the same. Fields, constructors and the kit's names count
as they are.

    python3 twice.py TOP
"""

import collections
import csv
import glob
import os
import re
import sys

# Two definitions of fewer words and signs are often the same by chance.
SMALLEST = 16

TOKEN = re.compile(
    r'"(?:[^"\\]|\\.)*"'  # a text
    r"|[A-Za-z_][\w'\-]*(?:\.[A-Za-z_][\w'\-]*)*"  # a name, with the fields that are taken of it
    r"|\.[A-Za-z_][\w'\-]*"  # a field of what is in brackets
    r"|\d\w*|[^\s\w]"
)
ITEM = re.compile(r"^(?:abbrev |unfoldable )?(?:pub )?(?:record |data )?([A-Za-z_][\w'\-]*)")
USE = re.compile(r"^(?:pub )?use ([\w.'\-]+?)(?:\.\{([^}]*)\})?(?: as (\S+))?$")
FIELD = re.compile(r"^\s+(?:pub )?([A-Za-z_][\w'\-]*) :")
COMMENT = re.compile(r"(^|\s)--(\s.*)?$")
# What a definition may begin with, and what does not change its meaning.
HEADS = ("abbrev", "unfoldable", "pub", "use")
WORDS = {"where", "let", "in", "if", "then", "else", "record", "data", "elim", "tt", "refl", "absurd"}


class Definition:
    def __init__(self, crate, file, name, lines):
        self.name, self.lines = name, lines
        self.file = "Rattle.%s.specs.%s" % (crate, file)
        self.path = "%s.%s" % (self.file, name)
        self.place = "%s/%s.%s" % (crate, file, name)
        shape = re.match(r"(?:pub )?(?:record|data) ", lines[0])
        self.fields = {found[1] for found in map(FIELD.match, lines[1:]) if found} if shape else set()

    def tokens(self):
        return [token for line in self.lines for token in TOKEN.findall(line)]


def items_in(text):
    """The items of a file, each with its name and its lines: a declaration has its equations, and lines that are indented."""
    name, lines = None, []
    for line in text.split("\n"):
        line = COMMENT.sub("", line).rstrip()
        if not line:
            continue
        found = ITEM.match(line)
        goes_on = line[0].isspace() or (found and found[1] == name and not line.startswith(tuple(h + " " for h in HEADS)))
        if lines and not goes_on:
            yield name, lines
            lines = []
        if not goes_on:
            name = found[1] if found else None
        lines.append(line)
    if lines:
        yield name, lines


def names_brought(line):
    """The names that a `use` line brings, each with the path that it stands for."""
    path, items, alias = USE.match(line).groups()
    if items is None:
        return {alias or path.rsplit(".", 1)[-1]: path}
    pairs = [item.strip().split(" as ") for item in items.split(",")]
    return {pair[-1].strip(): path + "." + pair[0].strip() for pair in pairs}


def read(top):
    """All definitions by their paths, and for each file the paths of the names that it brings or defines."""
    definitions, names = {}, collections.defaultdict(dict)
    for path in sorted(glob.glob(os.path.join(top, "crates", "*", "specs", "*.antt"))):
        crate, file = path.split(os.sep)[-3], os.path.basename(path)[: -len(".antt")]
        with open(path, encoding="utf-8") as source:
            items = list(items_in(source.read()))
        for name, lines in items:
            if USE.match(lines[0]):
                names["Rattle.%s.specs.%s" % (crate, file)].update(names_brought(lines[0]))
            elif name not in (None, "mod", "module", "syntax"):
                one = Definition(crate, file, name, lines)
                definitions[one.path] = one
                names[one.file][name] = one.path
    return definitions, names


def meaning(token, names, class_of, bound):
    """A name as it counts: the class of a definition, the path of another, or the number of a bound variable."""
    word, *fields = token.split(".")
    path = names.get(word)
    if path is None:
        # A word with a capital that nothing brings is one of the language, as `Type`.
        return ".".join([word if re.match(r"[A-Z]\w", word) else "v%d" % bound.setdefault(word, len(bound)), *fields])
    if fields and path + "." + fields[0] in class_of:
        path, fields = path + "." + fields[0], fields[1:]
    return ".".join(["c%d" % class_of[path] if path in class_of else path, *fields])


def text_of(one, names, class_of):
    """The text of a definition, in which each name is what it means. Each line binds variables of its own."""
    out = []
    for line in one.lines:
        bound = {}
        for token in TOKEN.findall(line):
            if token == one.name:
                out.append("itself")
            elif token in WORDS or token in one.fields or not re.match(r"[A-Za-z_]", token):
                out.append(token)
            elif token not in HEADS:
                out.append(meaning(token, names, class_of, bound))
        out.append("\n")
    return " ".join(out)


def classes_of(definitions, names):
    """The class of each definition. First all are in one; then those are parted whose texts differ, until no text parts any more."""
    class_of, count = dict.fromkeys(definitions, 0), 1
    while True:
        numbers, later = {}, {}
        for path, one in definitions.items():
            key = (class_of[path], text_of(one, names[one.file], class_of))
            later[path] = numbers.setdefault(key, len(numbers))
        class_of = later
        if len(numbers) == count:
            return class_of
        count = len(numbers)


def groups_in(top):
    """How many definitions are large enough to be compared, and the places of those that stand twice, a list for each."""
    definitions, names = read(top)
    groups = collections.defaultdict(list)
    for path, number in classes_of(definitions, names).items():
        groups[number].append(definitions[path])
    large = [group for group in groups.values() if len(group[0].tokens()) >= SMALLEST]
    return sum(map(len, large)), [sorted(one.place for one in group) for group in large if len(group) > 1]


def excuses_in(path):
    """Why definitions may stand twice, by their places."""
    with open(path, encoding="utf-8", newline="") as file:
        return {tuple(row["definitions"].split()): row["reason"] for row in csv.DictReader(file)}


def count_twice(tally, top):
    """Counts for a check each definition that stands once, or twice for a reason that checks/twice.csv has."""
    compared, groups = groups_in(top)
    excuses = excuses_in(os.path.join(top, "checks", "twice.csv"))
    tally.count("definitions", "" if compared else "none was compared")
    for group in groups:
        tally.count(" ".join(group), "" if excuses.get(tuple(group)) else "they are the same, and checks/twice.csv has no reason for it")
    for places in sorted(set(excuses) - {tuple(group) for group in groups}):
        tally.count(" ".join(places), "checks/twice.csv has a reason for them, and they are not the same")


if __name__ == "__main__":
    for found in groups_in(sys.argv[1])[1]:
        print(" ".join(found))
