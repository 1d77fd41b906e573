"""What a check may count on in any checkout and on any machine: examples that it may change, and time that follows the load.

    copy_examples(top, folder)    puts the repository's own files of examples/ into a folder
    patience(seconds)             how long to wait by the clock for what takes an idle machine so many seconds
    has_tool(name)                whether a command can be run that a check needs
    each(work, cases, jobs)       what the work gives of each case, by so many processes
"""

import fnmatch
import multiprocessing
import os
import re
import shutil
import subprocess


def known_to_git(top, folder):
    """The files of a folder that git knows; none if there is no git, or the folder is not in a repository of its own."""
    words = ["git", "-C", top, "-c", "safe.directory=*", "ls-files", "-z", folder]
    if not os.path.exists(os.path.join(top, ".git")) or not shutil.which("git"):
        return []
    listed = subprocess.run(words, stdin=subprocess.DEVNULL, capture_output=True).stdout.decode().split("\0")
    return [name for name in listed if name and os.path.isfile(os.path.join(top, name))]


def is_ignored(name, patterns):
    """Whether a pattern of a .gitignore names the file or a folder that it is in. A pattern with a slash is one from the top on."""
    parts = name.split("/")
    folders = ["/".join(parts[:count]) for count in range(1, len(parts) + 1)]
    return any(fnmatch.fnmatchcase(path if "/" in pattern.rstrip("/") else os.path.basename(path), pattern.strip("/"))
               for pattern in patterns for path in folders)


def not_ignored(top, folder):
    """The files of a folder that its .gitignore does not name."""
    with open(os.path.join(top, folder, ".gitignore"), encoding="utf-8") as file:
        patterns = [line.strip() for line in file if line.strip() and not line.startswith("#")]
    names = [os.path.relpath(os.path.join(path, name), os.path.join(top, folder)) for path, _, names in os.walk(os.path.join(top, folder)) for name in names]
    return [os.path.join(folder, name) for name in names if not is_ignored(name, patterns)]


def copy_examples(top, folder):
    """Puts the files of examples/ into a folder. What a user left among them is not copied, and neither are the modes: a checkout
    that may not be written gives files and folders that may."""
    for name in known_to_git(top, "examples") or not_ignored(top, "examples"):
        path = os.path.join(folder, os.path.relpath(name, "examples"))
        os.makedirs(os.path.dirname(path), exist_ok=True)
        shutil.copyfile(os.path.join(top, name), path)


def has_tool(name):
    """Whether a command is there. Verilator counts from version 5 on, the first that runs a bench with delays."""
    if not shutil.which(name):
        return False
    if name != "verilator":
        return True
    version = subprocess.run([name, "--version"], stdin=subprocess.DEVNULL, capture_output=True, text=True).stdout
    found = re.match(r"Verilator (\d+)", version)
    return bool(found) and int(found[1]) >= 5


def patience(seconds):
    """How long to wait by the clock for what takes an idle machine so many seconds: twice that, and as much again for each process
    that waits for a processor. tally.bash has the same for scripts."""
    try:
        load = os.getloadavg()[0]
    except OSError:
        load = 0
    return 2 * seconds * (1 + load / (os.cpu_count() or 1))


def pool_of(jobs):
    """Processes that share the work; none if one is enough, or the machine has no shared memory, as in a bare container."""
    try:
        return multiprocessing.Pool(jobs) if jobs > 1 else None
    except OSError:
        return None


def each(work, cases, jobs=1, at_once=1):
    """What the work gives of each case, in their order, by so many processes if the machine has them."""
    pool = pool_of(jobs)
    if pool is None:
        yield from map(work, cases)
        return
    with pool:
        yield from pool.imap(work, cases, chunksize=at_once)
