"""How GNU parallel is given the numbers: it runs this tool for some of them at once, here or on other machines."""

import base64
import json
import os
import shlex
import subprocess
import sys
import tempfile

from campaign.one_number import record_of
from reading.files import Refused

# The word before the settings and the numbers of one job.
RUN = "--run"
# A job has several numbers, since the start of Python takes longer than most runs.
MOST_NUMBERS = 16


def packed(settings):
    """Settings as one word without any mark that a shell or parallel would take for its own."""
    return base64.urlsafe_b64encode(json.dumps(settings).encode()).decode()


def run_job(words):
    """Runs the numbers of one job, and prints the record of each."""
    settings = json.loads(base64.urlsafe_b64decode(words[0]))
    for number in map(int, words[1:]):
        try:
            record = record_of(number, settings)
        except (Refused, OSError) as error:
            record = {"number": number, "status": None, "seconds": 0, "last": str(error)}
        print(json.dumps(record), flush=True)


def run_all(tool, numbers, settings, options, take):
    """Has parallel run the numbers, and calls `take` with each line that a job prints."""
    each = max(1, min(MOST_NUMBERS, len(numbers) // (4 * (os.cpu_count() or 1))))
    command = " ".join([shlex.quote(tool), RUN, packed(settings), "{}"])
    with tempfile.NamedTemporaryFile("w", prefix="campaign.", encoding="ascii") as file:
        file.writelines("%d\n" % number for number in numbers)
        file.flush()
        words = ["parallel", "--will-cite", "--arg-file", file.name, "--max-args", "%d" % each] + ["--bar"] * sys.stderr.isatty() + options + [command]
        with subprocess.Popen(words, stdin=subprocess.DEVNULL, stdout=subprocess.PIPE, encoding="utf-8", errors="replace") as jobs:
            for line in jobs.stdout:
                take(line.rstrip("\n"))
