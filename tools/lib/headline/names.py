"""What the names in a definition mean: which of them it binds itself, and to which definitions the others lead."""

import re

WORD = re.compile(r"\"(?:[^\"\\]|\\.)*\"|'[^']'|[A-Za-z_][\w'-]*(?:\.[A-Za-z_][\w'-]*)*|\.[A-Za-z_][\w'-]*|\d\w*|[^\s\w.]+|\.")
IS_NAME = re.compile(r"[A-Za-z_]")
# The field that a record's value gives, and the field or constructor that a record or a data type has.
GIVEN = re.compile(r"(?:[{;]\s*|^\s+)([A-Za-z_][\w'-]*) =(?: |$)", re.M)
FIELD = re.compile(r"^\s+(?:pub )?([A-Za-z_][\w'-]*) :", re.M)
BINDER = re.compile(r"[({]([A-Za-z_][\w' -]*) : ")
LAMBDA = re.compile(r"λ ([^.]*)\.")
LET = re.compile(r"\blet (\([^)]*\)|[A-Za-z_][\w'-]*)")
# Words of the language, and what it has built in.
LANGUAGE = {"abbrev", "pub", "record", "data", "where", "unfoldable", "unfolding", "let", "in", "if", "then", "else", "elim", "as", "absurd",
            "lit", "tt", "Unit", "Type", "refl", "use", "λ"}
# Constructors of the kit that begin with a small letter.
SMALL = {"zero", "suc", "true", "false", "pos", "negsuc", "inl", "inr"}


class Unresolved(Exception):
    """A name that leads nowhere."""


class Names:
    """The definitions of a checkout, and the names that lead to them."""

    def __init__(self, items, aliases):
        self.items, self.aliases = items, aliases
        self.crates = {item.crate for item in items.values()}
        self.types = {}
        for item in items.values():
            if item.is_code:
                self.types.setdefault(item.name, []).append(item)

    def is_ours(self, path):
        parts = path.split(".")
        return len(parts) > 1 and parts[0] == "Rattle" and parts[1] in self.crates

    def item_of(self, path):
        """The definition of a full name: itself, what it stands for, or the type whose variant or field it is. None for a word of the kit."""
        if not self.is_ours(path):
            return None
        parts = path.split(".")
        for count in range(len(parts), 3, -1):
            head = ".".join(parts[:count])
            if head in self.items:
                return self.items[head]
            if head in self.aliases:
                return self.item_of(".".join([self.aliases[head]] + parts[count:]))
        raise Unresolved("%s leads to no definition" % path)

    def meaning(self, word, scope):
        """The full name that a word of a file has, if the file or its imports have it."""
        head, _, rest = word.partition(".")
        if head in scope.own:
            return scope.own[head].path
        if head in scope.imported:
            return scope.imported[head]
        if head in scope.modules:
            return scope.modules[head] + ("." + rest if rest else "")
        return None

    def words_of(self, item):
        """Each word of a definition with the definition that it leads to, or the full name of a word of the kit, in order; None for what
        it binds itself and for what is no name."""
        if item.kind == "constant":
            return
        if item.kind == "type":
            yield from self.words_of_type(item)
            return
        bound = bound_in(item, self)
        for line in item.code():
            for word, is_given in words_in(line):
                yield word, None if is_given else self.lead(word, bound, item)

    def lead(self, word, bound, item):
        head = word.partition(".")[0]
        if not IS_NAME.match(head) or head in LANGUAGE or head in bound:
            return None
        path = self.meaning(word, item.scope)
        if path is None:
            raise Unresolved("%s:%d: %s leads to no definition" % (item.place + (word,)))
        return self.item_of(path) or path

    def words_of_type(self, item):
        """The types in the fields of a type. The variants of an enum are no types."""
        is_enum = item.lines[0].startswith("pub enum")
        for line in item.code():
            for word in re.findall(r"\b[A-Z]\w*", re.sub(r"^ {4}\w+", "", line) if is_enum else line):
                yield word, self.type_of(word, item)

    def type_of(self, word, item):
        """The type of this name that the file of another has or imports."""
        if word in item.scope.own:
            return item.scope.own[word] if item.scope.own[word] is not item else None
        crate = item.scope.imported.get(word)
        found = [it for it in self.types.get(word, []) if it.crate == crate]
        return found[0] if len(found) == 1 else None


def words_in(line):
    """The words of a line, and of each whether it names the field that a record's value gives."""
    given = {found.start(1) for found in GIVEN.finditer(line)}
    for found in WORD.finditer(line):
        yield found[0], found.start() in given


def bound_in(item, names):
    """The names that a definition binds itself: its parameters and fields, and those of its patterns, lambdas and lets."""
    text = "\n".join(item.code())
    bound = {word for found in BINDER.findall(text) for word in found.split()}
    bound.update(FIELD.findall(text) if item.kind in ("record", "data") else ())
    for found in LAMBDA.findall(text) + LET.findall(text):
        bound.update(re.findall(r"[A-Za-z_][\w'-]*", re.sub(r" : [^()]*", "", found)))
    for pattern in re.findall(r"^%s\b(.*?) =(?: |$)" % re.escape(item.name), text, re.M | re.S):
        for word in WORD.findall(pattern):
            if IS_NAME.match(word) and "." not in word and not is_constructor(word, item, names):
                bound.add(word)
    return bound - {item.name}


def is_constructor(word, item, names):
    if word in SMALL:
        return True
    return word[0].isupper() and names.meaning(word, item.scope) is not None
