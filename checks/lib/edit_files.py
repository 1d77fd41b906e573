"""Wrong bodies as files: an edit names a file of its crate, and then pairs of an old text that stands there once and a new one.

    file: src/lib.rt
    old: TEXT
    new: TEXT

A TEXT is the rest of its line. Further pairs apply to what the earlier ones made. No other line is read.
"""

import glob
import os


class BadEdit(Exception):
    """Why an edit cannot be made."""


def pairs_of(edit):
    """Each pair of the edit with the path of its file in the crate."""
    path = old = None
    with open(edit, encoding="utf-8") as file:
        lines = file.read().split("\n")
    for line in lines:
        if line.startswith("file: "):
            path = line[len("file: ") :].strip()
        elif line.startswith("old: "):
            old = line[len("old: ") :]
        elif line.startswith("new:"):
            if path is None or old is None:
                raise BadEdit("a line 'new:' stands before its file or its old text")
            yield path, old, line[len("new:") :].removeprefix(" ")
            old = None


def text_of(crate, path):
    file = os.path.join(crate, path)
    if not os.path.isfile(file):
        raise BadEdit("there is no file " + path)
    with open(file, encoding="utf-8") as read:
        return read.read()


def replaced(texts, crate, edit):
    """Makes the edit in these texts of the crate's files, by their paths; a file that is not among them is read. Returns where: each
    path with the place of a text that was changed, as it stood in the file just before."""
    places = []
    for path, old, new in pairs_of(edit):
        text = texts.get(path) or text_of(crate, path)
        count = text.count(old)
        if count != 1:
            raise BadEdit("%r stands %d times in its file" % (old, count))
        if new == old:
            raise BadEdit("it changes nothing")
        places.append((path, text.index(old)))
        texts[path] = text.replace(old, new)
    if not places:
        raise BadEdit("it has no pair of an old and a new text")
    return places


def edits_in(folder):
    return sorted(glob.glob(os.path.join(folder, "*.edit")))


def name_of(edit):
    return os.path.basename(edit)[: -len(".edit")]


def crates_with_edits(top):
    return sorted(os.path.basename(it[:-1]) for it in glob.glob(os.path.join(top, "checks", "edits", "*", "")))
