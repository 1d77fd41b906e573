"""Files that a tool writes: each beside its place until all are whole, so that none is there that is not; and no file is replaced
that a user may have made.
"""

import os
import re
import tempfile

from reading.files import Refused, shown_name


class Outputs:
    """Files that get their names together, as a `with` ends without an error; otherwise they are removed."""

    def __init__(self):
        self.parts = []  # (file, its name until then, its name)

    def __enter__(self):
        return self

    def open(self, name):
        try:
            handle, part = tempfile.mkstemp(prefix=os.path.basename(name) + ".", dir=os.path.dirname(name) or ".")
        except OSError as error:
            raise Refused("%s: %s" % (shown_name(name), error.strerror)) from None
        self.parts.append((open(handle, "wb"), part, name))
        return self.parts[-1][0]

    def __exit__(self, kind, error, trace):
        try:
            for file, part, name in self.parts:
                file.close()
            for file, part, name in self.parts if kind is None else ():
                os.chmod(part, 0o666 & ~umask())
                os.replace(part, name)
        finally:
            for file, part, name in self.parts:
                if os.path.exists(part):
                    os.remove(part)


def umask():
    mask = os.umask(0)
    os.umask(mask)
    return mask


def must_be_free(names, overwrite):
    """A file that is there is not written over unaware."""
    for name in names:
        if os.path.lexists(name) and not overwrite:
            raise Refused("%s exists: another --out, or --overwrite" % shown_name(name))


def must_have_no_lanes(prefix, overwrite):
    """Lanes of a prefix are one interface, so that none of another may be there, whatever its number."""
    must_be_free(lanes_above(prefix, 0), overwrite)


def lanes_above(prefix, first):
    """The lane files of a prefix that are there, from a number on."""
    folder, name = os.path.split(prefix)
    pattern = re.compile(re.escape(name) + r"\.lane\.\d+")
    try:
        found = sorted((other for other in os.listdir(folder or ".") if pattern.fullmatch(other)), key=lambda other: int(other.rsplit(".", 1)[1]))
    except OSError as error:
        raise Refused("%s: %s" % (shown_name(prefix), error.strerror)) from None
    return [os.path.join(folder, other) for other in found if int(other.rsplit(".", 1)[1]) >= first]
