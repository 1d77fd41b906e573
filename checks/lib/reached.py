"""What a refusal stands on: the items of the sources that the proof of a changed function can see.

An item is a function, a type, a constant, a definition or a lemma. From the changed function this follows each name in its contract, body
and answers to the items of that name. Of a function with an `ensures` only the contract is seen. Of a crate below only statements are
seen: definitions, types, contracts, and of a lemma what it says. A name leads to all items that it may mean, so too much may be counted.
"""

import hashlib
import os
import re

from lib.edit_rounds import functions_in

NAME = r"[^\W\d][\w']*(?:-[\w']+)*"
TOKEN = re.compile(r"(\.|::)?(%s)" % NAME)
RATTLE_START = re.compile(r"(?:pub(?:\([^)]*\))? |ghost |const |static |unsafe |extern |async |type |use |mod |fn |struct |enum |union |trait |impl\b|#!?\[|macro_rules!)")
RATTLE_KIND = re.compile(r"^(?:pub(?:\([^)]*\))? )?(?:const |unsafe |extern \"C\" )*(fn|struct|enum|union|trait|impl|const|static|type|mod|use|ghost|macro_rules!)\b *(\w*)", re.M)
ANTT_HEAD = re.compile(r"(?:(?:pub|abbrev|unfoldable|private|opaque|instance|mutual) )*(record |data |class |module )?(\S+)")
ANTT_OPENS = re.compile(r"(?:pub|abbrev|unfoldable|private|opaque|instance|record|data|class|module|mutual)\b")
ANTT_SIGNED = re.compile(r"(\S+) :(?: |$)")
INNER = re.compile(r"^ +(?:pub )?(?:abbrev )?(?:\| )?(%s)(?: %s)* :(?: |$)" % (NAME, NAME), re.M)
BRACED = re.compile(r"^(.*?)\.?\{(.*)\}$", re.S)
GHOST_USE = re.compile(r"^ *ghost use ([^;]+);\n?", re.M)
RUST_USE = re.compile(r"^ *(?:pub(?:\([^)]*\))? )?use ([^;]+);\n?", re.M)
# Modules that a check makes for a function, and for a type.
MADE = {"Goals", "Given", "Code", "TheLaws", "Symbol", "Statement", "Met", "TheVariants", "Key"}


class Item:
    """A named piece of a source file. `head` is what others see of it, and `rest` what its own proof sees beside."""

    __slots__ = ("crate", "path", "names", "head", "rest", "owner", "linked", "found", "key", "sums", "is_function", "shows")

    def __init__(self, path, names, head, rest="", owner="", is_function=False, shows=False):
        self.path, self.names, self.head, self.rest, self.owner = path, names, head, rest, owner
        self.is_function, self.shows, self.linked = is_function, shows, []

    def text(self, whole):
        return self.head + self.rest if whole or self.shows else self.head


class Piece:
    """What a file has: its items, and what its names stand for. Nothing of it depends on other files."""

    def __init__(self, path, text):
        self.path, self.items, self.imports, self.globs = path, [], [], False
        if path.endswith(".rt"):
            self.read_rattle(text)
        elif path.endswith(".antt"):
            self.read_antt(text)
        else:
            self.items.append(Item(path, [], text))

    # ---- code

    def read_rattle(self, text):
        for found in GHOST_USE.finditer(text):
            self.ghost_use(found[1])
        for found in RUST_USE.finditer(text):
            self.rust_use(found[1].replace("\n", " "))
        cut, owners = [], {}
        for function in functions_in(self.path, text):
            begins = head_begins(text, function.head)
            ends = text.find("\n", function.end) + 1 or len(text)
            cut.append((begins, ends))
            head, body = text[begins : function.body], text[function.body : ends]
            item = Item(self.path, [function.name], head, body, function.owner, True, function.shows_code)
            owners.setdefault(chunk_before(text, begins) if text[begins:].startswith(" ") else None, []).append(item)
            self.items.append(item)
        self.read_rest(without(text, cut), owners)

    def read_rest(self, text, owners):
        """The types, constants, traits and blocks, without the functions that were read."""
        text = RUST_USE.sub("", GHOST_USE.sub("", text))
        for chunk in chunks(text.split("\n"), RATTLE_START.match, lambda lines: all(it.startswith("#[") for it in lines)):
            kind = RATTLE_KIND.search(chunk)
            if kind is None or kind[1] in ("mod", "use"):
                if chunk.startswith("#!["):
                    self.items.append(Item(self.path, ["#!"], chunk))
                continue
            head = chunk[kind.start() : (chunk.find("{") if "{" in chunk else len(chunk))]
            names = re.findall(r"\w+", head) if kind[1] == "impl" else [kind[2]]
            item = Item(self.path, names, chunk, owner="impl" if kind[1] == "impl" else "")
            inside = owners.get(chunk[kind.start() :].split("\n")[0], [])
            for it in inside:
                it.linked.append(item)
            if kind[1] == "trait" or " for " in head:
                # Calls of a trait's functions may have no name, as that of `from` by `?`.
                item.linked += inside
            self.items.append(item)

    def ghost_use(self, text):
        text, _, alias = text.partition(" as ") if "{" not in text else (text, "", "")
        braced = BRACED.match(text.strip())
        if not braced:
            self.imports.append((alias.strip() or text.split(".")[-1].strip(), text.strip(), None))
            return
        for name in braced[2].split(","):
            first, _, other = name.strip().partition(" as ")
            self.imports.append(((other or first).strip(), braced[1].strip(), first.strip()))

    def rust_use(self, text):
        text = text.strip()
        opens = text.find("{")
        if opens >= 0:
            for part in split_outside(text[opens + 1 : text.rindex("}")]):
                self.rust_use(text[:opens] + part.strip())
            return
        path, _, alias = text.partition(" as ")
        parts = path.strip().split("::")
        if parts[-1] == "*":
            self.globs = True
        else:
            self.imports.append((alias.strip() or parts[-1], parts[0], "::" + parts[-1]))

    # ---- definitions and proofs

    def read_antt(self, text):
        lines, known = joined([it for it in text.split("\n") if it]), {}
        current = None
        for line in lines:
            use = re.match(r" *(?:pub )?use (Rattle\..*)$", line, re.S)
            if use:
                self.ghost_use(use[1].replace("\n", " "))
                continue
            if re.match(r"(?:pub )?mod ", line):
                continue
            name = self.begins(line, known)
            if name:
                if name not in known:
                    known[name] = []
                    self.items.append(Item(self.path, [name], "", ""))
                    self.items[-1].linked = known[name]
                current = known[name]
            elif current is None:
                current = known.setdefault("", [])
                self.items.append(Item(self.path, [], "", ""))
                self.items[-1].linked = current
            current.append(line)
        for item in self.items:
            self.close(item)

    def begins(self, line, known):
        """The name of the item that a line begins or goes on with; nothing for a line that goes on with the last."""
        if not line or line[0] in " )]}|":
            return None
        head = ANTT_HEAD.match(line)
        if ANTT_OPENS.match(line):
            return head[2] if head else None
        signed = ANTT_SIGNED.match(line)
        if signed:
            return signed[1]
        first = line.split(" ")[0]
        return first if first in known else None

    def close(self, item):
        lines, item.linked = item.linked, []
        first = lines[0] if lines else ""
        text = "\n".join(lines) + "\n"
        is_lemma = self.path.startswith("proofs/") and not re.match(r"(?:pub )?(?:unfoldable|abbrev|record|data|class|module)", first)
        if not is_lemma:
            item.head = text
            item.names = item.names + INNER.findall(text)
            return
        said = 1
        while said < len(lines) and (not lines[said] or lines[said][0] in " )]}"):
            said += 1
        item.head, item.rest = "\n".join(lines[:said]) + "\n", "\n".join(lines[said:])


def head_begins(text, place):
    """Where a function with its attributes begins."""
    begins = text.rfind("\n", 0, place) + 1
    while begins:
        before = text.rfind("\n", 0, begins - 1) + 1
        line = text[before : begins - 1]
        if not line.strip().startswith("#["):
            break
        begins = before
    return begins


def chunk_before(text, place):
    """The first line of the block that a method stands in."""
    while place:
        before = text.rfind("\n", 0, place - 1) + 1
        line = text[before : place - 1]
        if line and line[0] not in " }){":
            return line
        place = before
    return None


def without(text, cut):
    kept, at = [], 0
    for begins, ends in sorted(cut):
        if begins >= at:
            kept.append(text[at:begins])
            at = ends
    return "".join(kept) + text[at:]


def chunks(lines, starts, goes_on):
    found = []
    for line in lines:
        if line and line[0] not in " {})]\"" and starts(line) and not (found and goes_on(found[-1])):
            found.append([])
        if found and line:
            found[-1].append(line)
    return ["\n".join(it) + "\n" for it in found]


def split_outside(text):
    """The parts of a list of names, cut at commas outside of braces."""
    parts, depth, last = [], 0, 0
    for place, sign in enumerate(text):
        depth += (sign == "{") - (sign == "}")
        if sign == "," and depth == 0:
            parts.append(text[last:place])
            last = place + 1
    return [it for it in parts + [text[last:]] if it.strip()]


def joined(lines):
    """The lines, with each `use` whose braces close on a later line as one."""
    found, open_use = [], None
    for line in lines:
        if open_use is not None:
            open_use += "\n" + line
        elif re.match(r" *(?:pub )?use Rattle\.", line) and line.count("{") > line.count("}"):
            open_use = line
        else:
            found.append(line)
            continue
        if open_use.count("{") <= open_use.count("}"):
            found.append(open_use)
            open_use = None
    return found


class House:
    """The crates with their items. `texts_of` gives a crate's files: paths below its folder with their texts without comments."""

    def __init__(self, uses, texts_of, pieces=None):
        self.uses, self.texts_of, self.pieces = uses, texts_of, {} if pieces is None else pieces
        self.crates = {}

    def crate(self, name):
        if name not in self.crates:
            self.crates[name] = Room(self, name, self.texts_of(name))
        return self.crates[name]

    def changed(self, crate, path, text):
        """The crates with another text of a file. Those that do not stand on its crate are shared."""
        above = {crate}
        for name in self.uses:  # each stands after those that it stands on
            if above.intersection(self.uses[name]):
                above.add(name)
        other = House(self.uses, lambda name: {**self.crate(name).texts, path: text} if name == crate else self.crate(name).texts, self.pieces)
        other.crates = {name: room for name, room in self.crates.items() if name not in above}
        return other


class Room:
    """The items of a crate, by their files and names."""

    def __init__(self, house, name, texts):
        self.house, self.name, self.texts = house, name, texts
        self.files, self.named, self.all = {}, {}, []
        for path, text in sorted(texts.items()):
            key = (path, text)
            if key not in house.pieces:
                house.pieces[key] = Piece(path, text)
            self.add(house.pieces[key])

    def add(self, piece):
        own = {}
        copies = {}
        for number, known in enumerate(piece.items):
            item = Item(known.path, known.names, known.head, known.rest, known.owner, known.is_function, known.shows)
            item.crate, item.key, item.found, item.sums = self.name, "%s/%s#%d" % (self.name, known.path, number), {}, {}
            copies[id(known)] = item
            for name in known.names:
                self.named.setdefault(name, []).append(item)
                own.setdefault(name, []).append(item)
            self.all.append(item)
        for known in piece.items:
            copies[id(known)].linked = [copies[id(it)] for it in known.linked]
        self.files[piece.path] = File(self, piece, own, [copies[id(it)] for it in piece.items])

    def scope(self):
        """This crate and those of the repository that it names."""
        return [self.name] + [it for it in self.house.uses[self.name] if it in self.house.uses]

    def by_name(self, name, crates=None):
        return [it for crate in (crates or self.scope()) for it in self.house.crate(crate).named.get(name, [])]


class File:
    def __init__(self, room, piece, own, items):
        self.room, self.piece, self.own, self.items = room, piece, own, items
        self.meant, self.always = {}, None

    def imported(self, name):
        """The items that an imported name stands for; None if the file imports no such name."""
        found = None
        for known, place, first in self.piece.imports:
            if known == name:
                found = (found or []) + self.target(place, first)
        return found

    def target(self, place, first):
        house = self.room.house
        if first is not None and first.startswith("::"):
            crate = self.room.name if place in ("crate", "self", "super") else place
            return house.crate(crate).named.get(first[2:], []) if crate in house.uses else []
        parts = place.split(".")
        if parts[0] != "Rattle" or len(parts) < 3 or parts[1] not in house.uses:
            return []
        return target_in(house.crate(parts[1]), parts[2:], first)

    def symbols(self):
        """What all items of the file stand on: imported names that are no words."""
        if self.always is None:
            self.always = [it for name, place, first in self.piece.imports if not re.match(NAME + "$", name) for it in self.target(place, first)]
        return self.always

    def resolve(self, before, word):
        """The items that a name may mean in this file, with what stands before it: `.`, `::` or nothing."""
        key = (before, word)
        if key not in self.meant:
            self.meant[key] = self.mean(before, word)
        return self.meant[key]

    def mean(self, before, word):
        found = list(self.own.get(word, []))
        if word[:1].isupper() and self.piece.path.endswith(".rt"):
            # The blocks of a type may stand in other files than the type.
            found += self.room.named.get(word, [])
        imported = self.imported(word)
        found += imported or []
        if self.piece.path.endswith(".rt") and (before or self.piece.globs):
            for item in self.room.by_name(word):
                if before == "." and not (item.is_function and item.owner):
                    continue
                found.append(item)
        return found


def target_in(room, parts, first):
    """The items of a crate that `parts.{first}` stands for, or `parts` if there is no such name."""
    for names in (parts, [parts[0]] + [it for it in parts[1:] if it not in MADE]):
        file = room.files.get("/".join(names) + ".antt")
        if file:
            return (file.items if first is None else file.own.get(first)) or file.imported(first) or file.items
        file = room.files.get("/".join(names[:-1]) + ".antt")
        if file:
            return file.own.get(names[-1]) or file.items
    for name in ([first] if first else []) + parts[:0:-1]:
        found = [it for it in room.named.get(name, []) if it.path.startswith("src/")]
        if found:
            return found
    return room.all


def leads_to(house, item, whole):
    """The items that a text of an item names."""
    if whole not in item.found:
        room = house.crate(item.crate)
        file = room.files[item.path]
        text = item.text(whole)
        found = {id(it): it for it in file.symbols()}
        for before, word in TOKEN.findall(text):
            for it in file.resolve(before, word):
                found[id(it)] = it
        for it in item.linked:
            found[id(it)] = it
        item.found[whole] = [it for it in found.values() if it is not item]
    return item.found[whole]


def answers_of(room, function):
    """The items of a function's proof files: those in a folder of its name, below its file's or its type's."""
    start = "/".join(["proofs"] + module_of(function) + [""])
    for path, file in room.files.items():
        folders = path.split("/")[:-1]
        if folders[-1].lstrip("+") == function.names[0] and (path.startswith(start) or function.owner in folders):
            yield from file.items


def module_of(item):
    """The path of an item's file below the crate; empty for the root."""
    return [it for it in item.path[len("src/") : -len(".rt")].split("/") if it not in ("lib", "main")]


def reached(house, crate, roots, goes_below=True):
    """What the proof of these functions of a crate stands on, or of all its items if `roots` is None: two dicts by keys, of the crate
    itself and of those below, each with whether the item counts whole, and the item. Of the latter only those that the crate names, if it
    does not go below."""
    room = house.crate(crate)
    own, lower, todo = {}, {}, []

    def take(item, whole):
        into = own if item.crate == crate else lower
        whole = whole and item.crate == crate
        if into.get(item.key, (False,))[0] is True or (item.key in into and not whole):
            return
        into[item.key] = (whole, item)
        todo.append((item, whole))

    for root in room.all if roots is None else roots:
        take(root, True)
        for it in answers_of(room, root) if root.is_function else ():
            take(it, True)
    for it in room.named.get("#!", []):
        take(it, True)
    while todo:
        item, whole = todo.pop()
        if item.crate != crate and not goes_below:
            continue
        for it in leads_to(house, item, whole):
            # Of another function its contract is seen, and of a lemma of the crate its proof, too.
            take(it, it.crate == crate and not it.is_function)
    return own, lower


def sum_of(found):
    """One sum of the texts of items, as `reached` gives them."""
    texts = sorted("%s\n%s" % (item.crate, item.text(whole)) for whole, item in found.values())
    return hashlib.sha256("\0".join(texts).encode()).hexdigest()


def functions_named(room, said):
    """The functions of a crate that a refusal names, which begins with the full name of one."""
    crate, *parts = said.split(": ")[0].split("::")
    if crate != room.name or not parts:
        return []
    return [it for it in room.named.get(parts[-1], []) if it.is_function and is_at(it, parts[:-1] or [""])]


def is_at(item, parts):
    """Whether a function is in the module, or of the type, that the parts of a full name before its own say. A type may have functions in
    other files than its own."""
    return parts[-1] == item.owner if item.owner else [it for it in parts if it] == module_of(item)


def roots_of(room, functions, said):
    """The items of the functions that an edit changes, and of the one that refuses it. None if that is not known: then all of the crate
    counts."""
    if functions is None:
        return None
    changed = [it for it in room.all if it.is_function and any((it.path, it.names[0], it.owner) == (f.path, f.name, f.owner) for f in functions)]
    refuses = functions_named(room, said)
    if len(changed) < len({(f.path, f.name, f.owner) for f in functions}) or not refuses:
        return None
    return changed + [it for it in refuses if it not in changed]


def sums_of_roots(house, crate, roots, goes_below=True):
    """The sums of what a refusal stands on: in the crate itself, and below it if that is asked for."""
    own, lower = reached(house, crate, roots, goes_below)
    return {"own_sum": sum_of(own), "below_sum": sum_of(lower) if goes_below else ""}
