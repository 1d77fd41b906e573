"""Why a call on a file may have failed: what is wrong with its folder, its name or the disk."""

import os
import stat

from reading.files import shown_name

LITTLE = 1 << 16  # bytes free at which a disk is called full


def line_of(folder, name):
    """What is wrong with the file of a store fault."""
    return "%s: %s" % (shown_name(name), reason(folder.path(name), os.path.dirname(name)))


def reason(path, folder):
    parent = os.path.dirname(path) or "."
    if "\0" in path:
        return "the name has a zero byte, which file names cannot have"
    if os.path.isdir(path):
        return "it is a folder, not a file"
    if not os.path.isdir(parent):
        return parent_reason(parent, folder)
    if any(len(os.fsencode(part)) > 255 for part in path.split("/")):
        return "a part of the name has more than 255 bytes, which file names cannot have"
    if os.path.lexists(path) and not os.path.exists(path):
        return "it is a link to %s, which does not exist" % shown_name(os.readlink(path))
    if os.path.exists(path) and not stat.S_ISREG(os.stat(path).st_mode):
        return "it is %s, which is not a regular file" % shown_name(os.path.realpath(path))
    if os.statvfs(parent).f_flag & os.ST_RDONLY:
        return "the folder %s is on a read-only disk" % shown_name(folder or ".")
    return access_reason(path, parent, folder) or disk_reason(parent)


def parent_reason(parent, folder):
    above = parent
    while not os.path.exists(above):
        above = os.path.dirname(above) or "."
    if not os.path.isdir(above):
        return "%s is not a folder" % shown_name(above if os.path.isabs(folder) else os.path.relpath(above))
    return "the folder %s does not exist; `mkdir -p %s` creates it" % (shown_name(folder), folder)


def access_reason(path, parent, folder):
    if os.path.exists(path):
        wrong = [word for word, way in (("read", os.R_OK), ("written", os.W_OK)) if not os.access(path, way)]
        if wrong:
            return "permission denied: the file cannot be %s" % " or ".join(wrong)
    elif not os.access(parent, os.W_OK | os.X_OK):
        return "permission denied: cannot create files in %s" % shown_name(folder or ".")
    return None


def disk_reason(parent):
    disk = os.statvfs(parent)
    if disk.f_bavail * disk.f_frsize < LITTLE:
        return "the disk is full: %d bytes are free" % (disk.f_bavail * disk.f_frsize)
    if disk.f_files and disk.f_favail == 0:
        return "the disk has no room for another file"
    free = disk.f_bavail * disk.f_frsize >> 20
    return "nothing is wrong with its name and folder now, and %d MB are free: perhaps the disk was full during the run, a size limit was reached, or the disk failed" % free
