"""Runs of the program in a folder of their own, and the files that they leave."""

import collections
import importlib
import os
import subprocess
import sys
import tempfile
import traceback

from lib.machine import patience

# A run has to end by then on an idle machine.
SECONDS = 120

# The status, the text, what came on standard error, and the files that stand after the run.
Run = collections.namedtuple("Run", "status text error files")


def content(name):
    with open(name, "rb") as file:
        return file.read()


def files_in(folder):
    return {name: content(os.path.join(folder, name)) for name in sorted(os.listdir(folder))} if os.path.isdir(folder) else {}


def write_files(folder, files):
    for name, data in files.items():
        with open(os.path.join(folder, name), "wb") as file:
            file.write(data)


def left_by(program, words, before, seconds=SECONDS, environment=None):
    """The run of the program with these words in a folder with these files. One that does not end in time is stopped; its status is
    a text that says so, and it left nothing."""
    with tempfile.TemporaryDirectory() as folder:
        write_files(folder, before)
        how = {"cwd": folder, "stdin": subprocess.DEVNULL, "capture_output": True, "env": {**os.environ, **(environment or {})}}
        try:
            done = subprocess.run([program] + words, timeout=patience(seconds), **how)
        except subprocess.TimeoutExpired:
            return Run("none after %d seconds" % patience(seconds), b"", b"", {})
        return Run(done.returncode, done.stdout, done.stderr, files_in(folder))


class PythonTool:
    """A tool of this repository that is run in a child of this process, which has its modules already: to start Python takes longer
    than most calls. `module` is what the tool itself loads."""

    def __init__(self, path, module):
        self.path = path
        sys.dont_write_bytecode = True
        sys.path.insert(0, os.path.join(os.path.dirname(path), "lib"))
        importlib.import_module(module)
        with open(path, encoding="utf-8") as file:
            self.code = compile(file.read(), path, "exec")

    def run(self, words, before):
        """The run of the tool with these words in a folder with these files."""
        with tempfile.TemporaryDirectory() as folder, tempfile.TemporaryFile() as text, tempfile.TemporaryFile() as error:
            write_files(folder, before)
            sys.stdout.flush()
            child = os.fork()
            if child == 0:
                self.become(words, folder, text, error)
            status = os.waitstatus_to_exitcode(os.waitpid(child, 0)[1])
            for file in (text, error):
                file.seek(0)
            return Run(status, text.read(), error.read(), files_in(folder))

    def become(self, words, folder, text, error):
        """Makes this process the tool; it does not return."""
        status = 1
        try:
            os.chdir(folder)
            os.dup2(text.fileno(), 1)
            os.dup2(error.fileno(), 2)
            sys.argv = [self.path] + words
            sys.excepthook = sys.__excepthook__
            exec(self.code, {"__name__": "__main__", "__file__": self.path})
            status = 0
        except SystemExit as end:
            status = end.code or 0
        except BaseException:
            traceback.print_exc()
        finally:
            sys.stdout.flush()
            sys.stderr.flush()
            os._exit(status)
