"""Measures each command of the program: processor seconds (of the program and of the system for it) and peak memory.

    python3 measure.py PROGRAM [MEGABYTES [PACKET_BYTES..]]

It prints a table for each size of packets, of the least of three runs each. The ratio is the processor time of a command over that of
md5sum on the same capture in the same run; what does not read the capture has none. `cases.py` has the runs and their inputs. Then
`receive` once more, of the first size, with lane 3 of the eight replaced by one of the same length that declares no lock.
"""

import os
import subprocess
import sys
import tempfile

from cases import ON_CAPTURE, REPLACED, RUNS, make_ready, replaced_lane, write_inputs

TIMES = 3


def measured(words, folder):
    """The status, the processor seconds and the peak memory in MB of one run."""
    process = subprocess.Popen(words, cwd=folder, stdout=subprocess.DEVNULL)
    _, ended, used = os.wait4(process.pid, 0)
    process.returncode = os.waitstatus_to_exitcode(ended)
    return process.returncode, used.ru_utime + used.ru_stime, used.ru_maxrss / 1000


def least(words, folder):
    """The same of the run that took the least of TIMES, since other work on the machine only adds."""
    return min((measured(words, folder) for _ in range(TIMES)), key=lambda run: run[1])


def lane_in_place(kind, folder, length):
    """The bytes of a lane of this kind."""
    if kind == "of another metaframe":
        # It gives word locks and no lock.
        with open(os.path.join(folder, "m.lane.%d" % REPLACED), "rb") as file:
            return (file.read(length) * 2)[:length]
    return replaced_lane(kind, length)


def lanes_table(program, megabytes, size):
    """What `receive` takes with one of the eight lanes replaced."""
    print("\n`receive` of that capture with one lane of eight replaced:\n")
    row("lane", "seconds", "to all as sent")
    row("---", "---", "---")
    with tempfile.TemporaryDirectory() as folder:
        write_inputs(folder, megabytes, size)
        measured([program, "send", "a.plan"], folder)
        measured([program, "send", "m.plan"], folder)
        _, base, _ = least([program, "receive", "a.plan"], folder)
        row("as sent", "%.2f" % base, "1.0")
        name = os.path.join(folder, "o.lane.%d" % REPLACED)
        length = os.path.getsize(name)
        for kind in ("dark", "of noise", "of another metaframe"):
            with open(name, "wb") as file:
                file.write(lane_in_place(kind, folder, length))
            _, seconds, _ = least([program, "receive", "a.plan"], folder)
            row(kind, "%.2f" % seconds, "%.1f" % (seconds / base))


def row(*fields):
    print("| " + " | ".join(fields) + " |", flush=True)


def table(program, megabytes, size):
    print("\nA capture of %d MB in packets of %d bytes:\n" % (megabytes, size))
    row("command", "of", "seconds", "ratio to md5sum", "peak MB")
    row("---", "---", "---", "---", "---")
    with tempfile.TemporaryDirectory() as folder:
        write_inputs(folder, megabytes, size)
        # The first run brings the capture into the machine's memory.
        _, base, peak = least(["md5sum", "a.pcap"], folder)
        row("`md5sum`", "a capture", "%.2f" % base, "1.0", "%.0f" % peak)
        for run in RUNS:
            make_ready(run, folder)
            status, seconds, peak = least([program, *run.arguments], folder)
            ratio = "%.1f" % (seconds / base) if run in ON_CAPTURE else ""
            row("`%s`" % run.command, run.of, "%.2f" % seconds, ratio, "%.0f" % peak if status == 0 else "status %d" % status)


def main():
    program, numbers = os.path.abspath(sys.argv[1]), [int(word) for word in sys.argv[2:]]
    for size in numbers[1:] or [1514, 64]:
        table(program, numbers[0] if numbers else 100, size)
    lanes_table(program, numbers[0] if numbers else 100, (numbers[1:] or [1514])[0])


if __name__ == "__main__":
    main()
