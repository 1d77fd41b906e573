"""How many crates are proved at once: as many as there are processors, or fewer if their memory is not free.

`rt` plans up to six times the memory that a check takes, and has processors wait for it; no check was seen to take 3.5 GB. With RT_JOBS
it starts as many as it is told.
"""

import os
import re

# What a check may take.
BYTES = 3_500_000_000
GROUPS = "/sys/fs/cgroup"


def number_in(path):
    """The number in a file, or None if there is none, as for `max`."""
    try:
        with open(path) as file:
            return int(file.read())
    except (OSError, ValueError):
        return None


def room_in(group):
    """What a control group of either version leaves, in bytes, or None if it sets no limit."""
    for most, taken in (("memory.max", "memory.current"), ("memory.limit_in_bytes", "memory.usage_in_bytes")):
        limit, used = number_in(os.path.join(group, most)), number_in(os.path.join(group, taken))
        if limit is not None and used is not None:
            return max(limit - used, 0)
    return None


def groups_of(lines, root):
    """The folders of this process's control groups and of those around them, from /proc/self/cgroup."""
    for line in lines:
        controllers, _, path = line.rstrip("\n").partition(":")[2].partition(":")
        if controllers not in ("", "memory") and "memory" not in controllers.split(","):
            continue
        top = os.path.join(root, "memory") if controllers else root
        path = path.strip("/")
        while path:
            yield os.path.join(top, path)
            path = os.path.dirname(path)
        yield top


def free_memory():
    """Bytes that may be taken: what the machine has, or a control group leaves."""
    with open("/proc/meminfo") as file:
        free = int(re.search(r"MemAvailable:\s+(\d+)", file.read())[1]) * 1024
    try:
        with open("/proc/self/cgroup") as file:
            lines = file.readlines()
    except OSError:
        lines = []
    return min([free] + [it for it in map(room_in, groups_of(lines, GROUPS)) if it is not None])


def at_once(processors, free):
    return max(1, min(processors, int(free // BYTES)))


def jobs():
    """What INTERLAKEN_JOBS says, or else what processors and free memory allow."""
    said = os.environ.get("INTERLAKEN_JOBS", "")
    return int(said) if said.isdigit() and int(said) else at_once(len(os.sched_getaffinity(0)), free_memory())
