"""The definitions in the specs of crates, and the types and constants of their code that definitions name."""

import glob
import os
import re

# A comment from here on: alone in its line, or behind code.
COMMENT = re.compile(r"(^|\s)--(\s.*)?$")
HEAD = re.compile(r"(?:abbrev |unfoldable )?(?:pub )?(?:(record|data) )?([A-Za-z_][\w'-]*)")
# How a line begins that does not go on with the definition before it.
NEW = ("abbrev ", "unfoldable ", "pub ", "record ", "data ")
USE = re.compile(r"(pub )?use ([\w.'-]+?)(?:\.\{(.*)\})?(?: as (\S+))?$")
CONSTRUCTOR = re.compile(r"\s+(?:pub )?([A-Za-z_][\w'-]*) *:")
TYPE = re.compile(r"^pub (?:struct|enum|trait) (\w+)", re.M)
CODE_USE = re.compile(r"^(?:pub )?use (\w+)::([^;]+);", re.M)
CONSTANT = re.compile(r"^(?:pub(?:\(crate\))? )?const (\w+)\b[^;]*;", re.M)


class Item:
    """One definition: its full name, the place where it stands, its comment, and its lines with the comments in them."""

    def __init__(self, path, scope, place, kind, comment, lines):
        self.path, self.scope, self.place, self.kind, self.comment, self.lines = path, scope, place, kind, comment, lines
        self.name = path.rpartition(".")[2]

    @property
    def crate(self):
        return self.place[0].split("/")[1]

    @property
    def stem(self):
        """The name of its file."""
        return os.path.basename(self.place[0]).partition(".")[0]

    @property
    def is_code(self):
        return self.kind in ("type", "constant")

    def code(self):
        """Its lines without comments."""
        if self.is_code:
            return [line for line in self.lines if line.strip() and not line.strip().startswith("//")]
        return [line for line in (COMMENT.sub("", line).rstrip() for line in self.lines) if line]


class Scope:
    """What the names of one file mean: its definitions, with the constructors of its types; the names that it imports, of code with
    the crate of each; the modules."""

    def __init__(self, module):
        self.module, self.own, self.imported, self.modules = module, {}, {}, {}


def read_items(top):
    """All definitions by their full names, and the full names that stand for others: names that a file exports of another, and
    constructors."""
    items, aliases = {}, {}
    for path in sorted(glob.glob(os.path.join(top, "crates", "*", "specs", "**", "*.antt"), recursive=True)):
        read_specs(os.path.relpath(path, top), lines_of(path), items, aliases)
    for path in sorted(glob.glob(os.path.join(top, "crates", "*", "src", "**", "*.rt"), recursive=True)):
        read_code(os.path.relpath(path, top), "\n".join(lines_of(path)), items)
    return items, aliases


def lines_of(path):
    with open(path, encoding="utf-8") as file:
        return file.read().split("\n")


def module_of(place, folder):
    """The full name of the module of a file, as crates/C/specs/M.antt."""
    parts = place.split("/")
    inner = "/".join(parts[3:]).rpartition(".")[0].replace("/", ".")
    return "Rattle.%s.specs.%s%s" % (parts[1], folder, inner)


def read_specs(place, lines, items, aliases):
    scope, comment, item = Scope(module_of(place, "")), [], None
    for number, line in enumerate(lines, 1):
        code = COMMENT.sub("", line).rstrip()
        if not code:
            if item and line[:1].isspace() and line.strip():
                item.lines.append(line)  # a comment in a record
            comment = comment + [line] if line.startswith("--") else []
        elif code.startswith(("use ", "pub use ", "pub mod ", "mod ")):
            read_use(code, scope, aliases)
        elif item and goes_on(code, item.name):
            item.lines.append(line)
            if item.kind == "data" and CONSTRUCTOR.match(code):
                constructor = CONSTRUCTOR.match(code)[1]
                scope.own[constructor], aliases["%s.%s" % (scope.module, constructor)] = item, item.path
        else:
            kind, name = HEAD.match(code).groups()
            item = Item("%s.%s" % (scope.module, name), scope, (place, number), kind or "definition", comment, [line])
            scope.own[name] = items[item.path] = item
            comment = []


def goes_on(code, name):
    """Whether a line goes on with the definition of this name."""
    if code[0].isspace() or code.startswith("}"):
        return True
    return not code.startswith(NEW) and HEAD.match(code)[2] == name


def read_use(code, scope, aliases):
    found = USE.match(code)
    if not found:
        return
    public, base, names, alias = found.groups()
    if names is None:
        scope.modules[alias or base.rpartition(".")[2]] = base
        return
    for word in filter(None, (it.strip() for it in names.split(","))):
        name, _, other = word.partition(" as ")
        scope.imported[other or name] = "%s.%s" % (base, name)
        if public:
            aliases["%s.%s" % (scope.module, other or name)] = "%s.%s" % (base, name)


def read_code(place, text, items):
    """The public types of a file of code, and its constants."""
    scope = Scope(module_of(place, "declared."))
    for crate, names in CODE_USE.findall(text):
        own = place.split("/")[1] if crate in ("crate", "super", "self") else crate
        scope.imported.update((name, own) for name in re.findall(r"\b[A-Z]\w*", names))
    for kind, pattern in (("type", TYPE), ("constant", CONSTANT)):
        for found in pattern.finditer(text):
            path = "%s.%s%s" % (scope.module, "TheConstants." if kind == "constant" else "", found[1])
            body = body_of(text[found.start():]) if kind == "type" else found[0]
            items[path] = Item(path, scope, (place, line_at(text, found.start())), kind, comment_above(text, found.start()), body.split("\n"))
            scope.own[found[1]] = items[path]


def line_at(text, start):
    return text.count("\n", 0, start) + 1


def body_of(text):
    """What stands from a type on up to its end: the brace that stands alone, or the semicolon of one that has no fields."""
    first = text.partition("\n")[0]
    if first.endswith(("}", ";")):
        return first
    return text[:re.search(r"^\}|;$", text, re.M).end()]


def comment_above(text, start):
    comment = []
    for line in reversed(text[:start].split("\n")[:-1]):
        if not line.startswith(("///", "#[")):
            break
        if line.startswith("///"):
            comment.insert(0, line)
    return comment
