"""Draws the pictures of the tour from the files of examples/.

    python3 figures.py PROGRAM [FOLDER]

The program runs its commands on a copy of examples/; the pictures are written to FOLDER, which is the script's own by default. Those of
examples/damaged.plan, lanes.svg and stream.svg, and those of two ends, two_ends.svg, are drawn by tools/picture. Each other script here has
one: status, again, block, control_word and metaframe from files of the commands; whole, proved, crates, device, handles and lock from tables of their own. What is drawn of a run
is in a file or in the printed text, or was computed from the rules and agrees with both.
"""

import os
import shutil
import sys
import tempfile

sys.dont_write_bytecode = True
HERE = os.path.dirname(os.path.abspath(__file__))
sys.path.insert(0, os.path.join(HERE, "..", "..", "tools", "lib"))

import again
import block
import control_word
import crates
import device
import handles
import lock
import metaframe
import proved
import status
import whole
from picture import command
from reading.files import Folder

# Each command of the tour, the file that it takes, and the pictures that are drawn after it: their kinds and names.
PAGES = [("burst", "damaged.plan", []), ("link", "damaged.plan", [("lanes", "lanes"), ("stream", "stream")]), ("duplex", "two_ends.duplex", [("queues", "two_ends")])]


def copy_examples(source, target):
    """Copies the files of a folder without its mode, which may be that of one that nobody writes."""
    for name in os.listdir(source):
        if os.path.isfile(os.path.join(source, name)):
            shutil.copyfile(os.path.join(source, name), os.path.join(target, name))


def main():
    program, target = os.path.abspath(sys.argv[1]), os.path.abspath(sys.argv[2]) if len(sys.argv) > 2 else HERE
    with tempfile.TemporaryDirectory() as work:
        copy_examples(os.path.join(HERE, "..", "..", "examples"), work)
        os.chdir(work)
        folder = Folder(program, work)
        for name, plan, pictures in PAGES:
            with open("printed", "w", encoding="utf-8") as file:
                file.write(folder.run(name, plan))
            if pictures and command.main([plan, "--program", program, "--text", "printed", "--to", "page"]):
                raise SystemExit(1)
            for kind, page in pictures:
                shutil.copy("page.%s.svg" % kind, os.path.join(target, page + ".svg"))
        for page in (status, again, whole, proved, crates, device, handles, lock, block, control_word, metaframe):
            page.draw(folder, os.path.join(target, page.__name__ + ".svg"))
        os.chdir(HERE)


if __name__ == "__main__":
    main()
