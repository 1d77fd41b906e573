"""What the prover's processes take, seen from outside while they run."""

import os
import re
import threading
import time

# The pause between two looks, in seconds.
PAUSE = 0.5


class Watch(threading.Thread):
    """Looks at the prover's processes in a folder and below it: when those of each crate were first and last seen, and what they took."""

    def __init__(self, folder):
        super().__init__(daemon=True)
        self.folder, self.seen, self.running = os.path.realpath(folder), {}, {}

    def run(self):
        while True:
            now, running = time.monotonic(), {}
            for pid in filter(str.isdigit, os.listdir("/proc")):
                try:
                    self.look("/proc/" + pid, now, running)
                except (OSError, ValueError, LookupError, TypeError):
                    pass  # no process of the prover, or one that has ended meanwhile
            self.running = running
            time.sleep(PAUSE)

    def look(self, process, now, running):
        with open(process + "/cmdline", "rb") as file:
            words = file.read().decode(errors="replace").split("\0")
        if os.path.basename(words[0]) != "rattle" or not os.readlink(process + "/cwd").startswith(self.folder):
            return
        name = words[words.index("--crate-name") + 1]
        with open(process + "/stat") as file:
            fields = file.read().rpartition(")")[2].split()
        with open(process + "/status") as file:
            peak = int(re.search(r"VmHWM:\s+(\d+)", file.read())[1]) * 1024 / 1e6
        found = self.seen.setdefault(name, {}).setdefault((process, fields[19]), {"first": now})
        found.update(last=now, peak=peak, cpu=(int(fields[11]) + int(fields[12])) / os.sysconf("SC_CLK_TCK"))
        running[name] = now - min(it["first"] for it in self.seen[name].values())

    def cost_of(self, name):
        """A row of a file of costs."""
        found = self.seen[name].values()
        seconds = max(it["last"] for it in found) - min(it["first"] for it in found) + PAUSE
        return {"seconds": seconds, "cpu_seconds": sum(it["cpu"] for it in found), "peak_mb": max(it["peak"] for it in found)}
