"""Runs of the model in model/, in the form in which runs.py has those of the program; and what two runs differ in."""

import os
import sys
import tempfile

from lib.runs import Run, files_in, write_files

sys.path.append(os.path.join(os.path.dirname(os.path.abspath(__file__)), "..", "..", "model"))
import interlaken


def left_by_model(words, before):
    """The run of the model with these words in a folder with these files."""
    here = os.getcwd()
    with tempfile.TemporaryDirectory() as folder:
        write_files(folder, before)
        os.chdir(folder)
        try:
            status, text = interlaken.run(words)
        finally:
            os.chdir(here)
        return Run(status, text.encode(), b"", files_in(folder))


def differences(mine, model):
    """What a run of the program and one of the model differ in, or nothing."""
    told = ["%s: program %r, model %r" % (part, getattr(mine, part), getattr(model, part)) for part in ("status", "text", "error")
            if getattr(mine, part) != getattr(model, part)]
    names = sorted({*mine.files, *model.files})
    return "; ".join(told + ["file %s differs" % name for name in names if mine.files.get(name) != model.files.get(name)])
