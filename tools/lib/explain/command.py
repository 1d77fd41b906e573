"""The command `explain`: runs the program, passes its text and status on, and says on the error output what they mean."""

import os
import shutil
import subprocess
import sys

from explain import causes, guard, stores, usage, warnings
from explain.inputs import Inputs
from reading.ending import discard
from reading.files import Folder, is_text, own_program

DONE, STORE_FAULT, USAGE, HELD, PLAN_REFUSED, INPUT_REFUSED, OUT_OF_MEMORY, SINK_FAULT, NO_WORDS, NOT_BUILT = 0, 1, 2, 3, 4, 5, 6, 7, 8, 70
OPTION, OVERWRITE = "--program", "--overwrite"


def options_of(words):
    """The program, by the option, by the environment, or the repository's own; whether files may be written over; and the words that are
    left for the program."""
    program, overwrite = None, False
    while words[:1] == [OVERWRITE] or words[:1] == [OPTION] and len(words) > 1:
        if words[0] == OVERWRITE:
            overwrite, words = True, words[1:]
        else:
            program, words = words[1], words[2:]
    return program or own_program(sys.argv[0]), overwrite, words


def tell(lines):
    for line in lines:
        print(line.encode("utf-8", "backslashreplace").decode(), file=sys.stderr)
    sys.stderr.flush()


def run(program, words):
    """The status and the text of the program; its error output goes where this one's goes."""
    found = program if os.path.isfile(program) else shutil.which(program)
    if found is None:
        return NOT_BUILT, b"", ["explain: there is no program %s; INTERLAKEN_PROGRAM or %s names it" % (program, OPTION)]
    try:
        done = subprocess.run([os.path.abspath(found)] + words, stdout=subprocess.PIPE, close_fds=False)
    except OSError as error:
        return NOT_BUILT, b"", ["explain: %s: %s" % (found, error.strerror)]
    if done.returncode >= 0:
        return done.returncode, done.stdout, []
    hint = ": perhaps memory ran out" if done.returncode == -9 else ""
    return 128 - done.returncode, done.stdout, ["explain: the program was stopped by signal %d%s" % (-done.returncode, hint)]


def pass_on(text):
    """Whether the text could be written, or nobody reads it."""
    try:
        sys.stdout.buffer.write(text)
        sys.stdout.buffer.flush()
        return True
    except BrokenPipeError:
        discard()
        return True
    except OSError as error:
        tell(["explain: standard output: %s" % error.strerror])
        discard()
        return False


def refusal_lines(folder, words, text):
    """The refusal in full, if the inputs have the one that the program printed."""
    if len(words) != 2:
        return ["explain: a file that `generate` wrote does not read back as it was written: somebody else changed it meanwhile"]
    is_pipe = os.path.exists(folder.path(words[1])) and not folder.has(words[1])
    inputs = None if is_pipe else Inputs(folder, *words, True)
    refused = inputs and inputs.refused
    if refused and refused.told:
        said = "plan refused: %s" % refused.told if refused.is_plan else "input refused: %s: %s" % (refused.name, refused.told)
        if said == text:
            return causes.lines_of(folder, inputs)
    return causes.lines_by_text(folder, *words, text)


def meaning(folder, words, status, text):
    """What a status that is not `done` or `held` means, in lines."""
    if status == USAGE:
        return usage.lines_of(words)
    if status in (PLAN_REFUSED, INPUT_REFUSED):
        return refusal_lines(folder, words, text)
    if status == STORE_FAULT:
        return [stores.line_of(folder, text.removeprefix("store fault: "))]
    if status == OUT_OF_MEMORY:
        return ["explain: memory ran out; bench/README.md says what each command takes"]
    if status == NO_WORDS:
        return ["explain: word %d is not UTF-8: %r" % (number, os.fsencode(word)) for number, word in enumerate(words, 1) if not is_text(word)]
    return []


def main(words):
    if words in (["-h"], ["--help"]):
        print("\n".join(usage.help_lines()))
        return DONE
    program, overwrite, words = options_of(words)
    folder, inputs = Folder(program, os.getcwd()), None
    if len(words) == 2 and usage.fault_of(words) is None and folder.has(words[1]):
        # An output may have the name of an input, so they are read before the run. What comes through a pipe is left to the program.
        inputs = Inputs(folder, *words, False)
        against = None if overwrite else guard.line_against(inputs)
        if against:
            tell(["explain: " + against])
            return USAGE
        tell(warnings.before(inputs) if not inputs.refused else [])
    status, text, lines = run(program, words)
    tell(lines)
    if not pass_on(text):
        return SINK_FAULT
    said = text.decode("utf-8", "replace").removesuffix("\n")
    tell(warnings.after(inputs, said) if inputs and status in (DONE, HELD) else meaning(folder, words, status, said))
    return status
