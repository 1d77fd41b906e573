"""Which wrong bodies of a crate can be tried in one check.

A function is proved from its own body and from the contracts of what it calls. So two edits within bodies of different functions say
nothing of each other, unless one function sees the other's code: a function without an `ensures` has its code for a contract.
"""

import re

HEAD = re.compile(r"^(\s*)(?:pub(?:\([^)]*\))? )?(?:const )?(?:unsafe )?(?:extern \"C\" )?fn (\w+)", re.M)
WORD = re.compile(r"\w+")
BLOCK = re.compile(r"^(?:pub )?(?:impl(?:<[^{]*?>)? (?:([\w:]+(?:<\w+>)?)(?:<[^{]*?>)? for )?([\w:]+)|trait (\w+))[^;{]*\{", re.M)


class Function:
    """A function of a source file: its name, where its body begins and ends, and what the body names."""

    def __init__(self, path, name, head, body, end, text):
        self.path, self.name, self.head, self.body, self.end = path, name, head, body, end
        self.words = set(WORD.findall(text[body:end]))
        self.shows_code = "ensures" not in text[head:body]
        self.owner = owner_of(text, head)

    def module(self):
        """The path of its file below the crate; empty for the root."""
        return "::".join(it for it in self.path[len("src/") : -len(".rt")].split("/") if it not in ("lib", "main"))

    def full_name(self):
        """Its name below the crate, as a check prints it."""
        return "::".join(it for it in (self.module(), self.owner, self.name) if it)


def owner_of(text, place):
    """The type that a method is of, with its trait's name behind if it is a trait's; nothing for other functions."""
    if not text[text.rfind("\n", 0, place) + 1 :].startswith(" "):
        return ""
    blocks = list(BLOCK.finditer(text, 0, place))
    if not blocks:
        return ""
    of_trait, of_type, trait = ("".join(WORD.findall(it.split("::")[-1])) if it else "" for it in blocks[-1].groups())
    return trait or of_type + of_trait


def functions_in(path, text):
    """The functions of a file in the layout of `rt fmt`: a body ends with a brace in the column of the head, or is `{}` there."""
    found = []
    for head in HEAD.finditer(text):
        indent = head[1].lstrip("\n")
        end = re.compile(r"^%s\{?\}" % indent, re.M).search(text, head.end())
        line = text[head.start(2) : text.find("\n", head.start(2))]
        if line.rstrip().endswith("}"):
            opens, closes = text.index("{", head.start(2)), text.find("\n", head.start(2))
        elif end is None or re.compile(r";\s*$").search(line):
            continue
        elif end[0].endswith("{}"):
            opens, closes = end.end() - 2, end.end() - 1
        else:
            own = re.compile(r"^%s\{$|\{$" % indent, re.M).search(text, head.start(2), end.start())
            if own is None:
                continue
            opens, closes = own.end() - 1, end.start()
        found.append(Function(path, head[2], head.start(2), opens, closes, text))
    return found


def outline(path, text):
    """The text without the bodies of functions that have an `ensures`: what others may rest on."""
    for function in sorted(functions_in(path, text), key=lambda it: -it.body):
        if not function.shows_code and function.end <= len(text):
            text = text[: function.body] + text[function.end :]
    return text


class Crate:
    """The functions of a crate, by its files' texts."""

    def __init__(self, texts):
        self.functions = [it for path, text in texts.items() for it in functions_in(path, text)]
        self.named = {}
        for function in self.functions:
            self.named.setdefault(function.name, []).append(function)

    def around(self, path, place):
        """The innermost function whose body has this place, or None."""
        inside = [it for it in self.functions if it.path == path and it.body < place < it.end]
        return max(inside, key=lambda it: it.body, default=None)

    def seen_by(self, function):
        """The names that the proof of a function may see the code of: what its body names, and what those name that show theirs."""
        names, todo = set(), [function]
        while todo:
            for word in todo.pop().words & self.named.keys() - names:
                names.add(word)
                todo += [it for it in self.named[word] if it.shows_code]
        return names

    def touch(self, one, other):
        """Whether a change of one function's body may change the proof of the other."""
        return one is other or self.sees(one, other) or self.sees(other, one)

    def sees(self, one, other):
        return other.shows_code and other.name in self.seen_by(one)


def rounds_of(crate, changed):
    """Shares out edits, each with the functions that it changes, so that in no round one touches another. An edit with None for its
    functions is not within bodies, and alone."""
    rounds = []
    for edit, functions in changed:
        place = next((it for it in rounds if fits(crate, functions, it)), None)
        if place is None:
            rounds.append([])
            place = rounds[-1]
        place.append((edit, functions))
    return rounds


def fits(crate, functions, others):
    if functions is None:
        return False
    return all(them is not None and not any(crate.touch(a, b) for a in functions for b in them) for _, them in others)
