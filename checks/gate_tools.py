"""What checks/gate_tools.sh does, with the repository as its word."""

import contextlib
import glob
import io
import os
import subprocess
import sys
import tempfile

TOP = os.path.abspath(sys.argv[1])
sys.path.insert(0, os.path.join(TOP, "tools", "lib"))

from build.jobs import BYTES, at_once, groups_of, room_in
from build.modules import costs_of, owner_of
from lib.edit_files import BadEdit, replaced
from lib.edit_rounds import Crate, functions_in, rounds_of
from lib.tally import Tally
from lib.tried import COLUMNS, Sources, fault_of_row, files_of, functions_of, rows_in, sums_now, without_comments, write_rows
from lib.try_edits import Book, refusals_in, refused_by, stale_of, turn_of

SOURCE = """//! A crate.

pub fn plain(n: u64) -> u64 {
    n + 1
}

/// Twice, by a contract.
pub fn twice(n: u64) -> u64
    requires { n < 2 ^ 60 }
    ensures { result ≡ n + n }
{
    half(n) + plain(n)
}

fn half(n: u64) -> u64
    ensures { result ≡ n / 2 }
{
    n / 2
}

impl Counter {
    pub fn step(&mut self)
        ensures { self.new ≡ suc self.old }
    {
        self.count = twice(self.count);
    }
}

const WIDTH: u64 = 7;
"""
OUTPUT = """note: src/lib.rt:4:5: it is not proved
./proofs/twice/Answers.antt:3:1: error: `returns`: the types differ; so it is
fn small::half: no proof: expected answers in ./proofs/half/Answers.antt; `search` did not prove `returns`
fn small::twice: not proved
fn small::Counter::step: no proof: it calls `small::twice`, which is not proved
fn small::plain: proved
logic=not-proved""".split("\n")
GONE = """./proofs/twice/Answers.antt:3:1: error: `c.half`: has no field `half`
fn small::twice: not proved""".split("\n")


def write(folder, path, text):
    path = os.path.join(folder, path)
    os.makedirs(os.path.dirname(path), exist_ok=True)
    with open(path, "w", encoding="utf-8") as file:
        file.write(text)
    return path


def functions(tally):
    crate = Crate({"src/lib.rt": SOURCE})
    tally.expect("the functions of a file", [it.name for it in crate.functions], ["plain", "twice", "half", "step"])
    tally.expect("a function without a contract shows its code", [it.shows_code for it in crate.functions], [True, False, False, False])
    around = lambda text: getattr(crate.around("src/lib.rt", SOURCE.index(text)), "name", None)
    tally.expect("the body of a method", around("self.count = twice"), "step")
    tally.expect("a contract is no body", around("n < 2 ^ 60"), None)
    tally.expect("a constant is no body", around("WIDTH"), None)
    named = {it.name: it for it in crate.functions}
    tally.expect("a caller of a function that shows its code", crate.touch(named["twice"], named["plain"]), True)
    tally.expect("a caller of a function with a contract", crate.touch(named["step"], named["twice"]), False)
    tally.expect("a caller of a caller of code that shows", crate.touch(named["step"], named["plain"]), False)
    changed = [("a", [named["twice"]]), ("b", [named["plain"]]), ("c", [named["half"]]), ("d", [named["twice"]]), ("e", None)]
    rounds = [[name for name, _ in it] for it in rounds_of(crate, changed)]
    tally.expect("which edits share a check", rounds, [["a", "c"], ["b"], ["d"], ["e"]])
    empty = functions_in("src/laws.rt", "pub fn law()\n    ensures { 1 ≡ 1 }\n{}\n\npub fn next() {\n    step()\n}\n")
    tally.expect("an empty body ends with itself", [(it.name, sorted(it.words)) for it in empty], [("law", []), ("next", ["step"])])


def edits(tally, room):
    write(room, "crates/small/src/lib.rt", SOURCE)
    crate = os.path.join(room, "crates", "small")
    good = write(room, "good.edit", "file: src/lib.rt\nold:     n / 2\nnew:     n / 3\n")
    texts = {}
    replaced(texts, crate, good)
    tally.expect("an edit that is made", "n / 3" in texts["src/lib.rt"], True)
    found = functions_of(good, Crate({"src/lib.rt": SOURCE}), {"src/lib.rt": SOURCE})
    tally.expect("the function that it changes", [it.name for it in found], ["half"])
    for name, text, why in (
        ("twice", "file: src/lib.rt\nold: n\nnew: m\n", "times in its file"),
        ("same", "file: src/lib.rt\nold:     n / 2\nnew:     n / 2\n", "it changes nothing"),
        ("no_file", "file: src/none.rt\nold: n\nnew: m\n", "there is no file"),
        ("no_pair", "file: src/lib.rt\n", "no pair"),
        ("no_old", "file: src/lib.rt\nnew: m\n", "before its file"),
    ):
        try:
            replaced({}, crate, write(room, name + ".edit", text))
            tally.count("an edit, " + name, "it was made")
        except BadEdit as error:
            tally.count("an edit, " + name, "" if why in str(error) else str(error))


def refusals(tally):
    said = refusals_in(OUTPUT)
    tally.expect("who has a goal of its own that is not proved", sorted(said), ["small::half", "small::twice"])
    tally.expect("what a proof file is refused for", said["small::twice"], "small::twice: `returns`: the types differ, so it is")
    tally.expect("a name that is gone", "names what is gone" in refusals_in(GONE)["small::twice"], True)
    functions = {it.name: it for it in functions_in("src/lib.rt", SOURCE)}
    tally.expect("an edit of a function that is refused", bool(refused_by([functions["half"]], said)), True)
    tally.expect("an edit of a caller of it", refused_by([functions["step"]], said), None)


def rows(tally, room):
    file = os.path.join(room, "tried.csv")
    now = {"edit_sum": "1", "own_sum": "2", "below_sum": "3", "logic": "l"}
    write_rows(file, {("small", "good"): dict(zip(COLUMNS, ["small", "good", *now.values(), "2026-12-01", "a goal, with a comma"]))})
    row = rows_in(file)[("small", "good")]
    tally.expect("a row with the present sums", fault_of_row(row, now), None)
    tally.count("no row", "" if "has no row" in fault_of_row(None, now) else "it counts")
    for column in now:
        tally.count("another " + column, "" if fault_of_row({**row, column: "0"}, now) else "it counts")


HOSTILE = (
    ('let a = "//"; // gone\n', 'let a = "//";\n'),
    ('let a = "\\"//"; /* gone */ let b = 1;\n', 'let a = "\\"//";   let b = 1;\n'),
    ('let a = r#"a " // "#; // gone "\n', 'let a = r#"a " // "#;\n'),
    ('let a = br"\\"; // gone\n', 'let a = br"\\";\n'),
    ("let a = '\"'; // gone \"\n", "let a = '\"';\n"),
    ("let a = '\\''; // gone '\n", "let a = '\\'';\n"),
    ("fn a<'b>(c: &'b u8) {} // it's gone\n", "fn a<'b>(c: &'b u8) {}\n"),
    ("a /* one /* two */ // */ b\n", "a   b\n"),
    ('a /* " */ b\n', "a   b\n"),
    ('let a = "one  \n\n  two"; \n\n\nb\n', 'let a = "one  \n\n  two";\nb\n'),
    ('// a "quote\nlet b = 1;\n', "let b = 1;\n"),
    ('let a = "one // two\n  // three"; // gone\n', 'let a = "one // two\n  // three";\n'),
    ('let a = r##"one "# // two\n\n */ "##; /* gone\n\n */ b\n', 'let a = r##"one "# // two\n\n */ "##;   b\n'),
    ('let a = "one\\\n  // two";\n', 'let a = "one\\\n  // two";\n'),
    ("let a = ('é', '\"', '//'); // gone\n", "let a = ('é', '\"', '\n"),
    ('let for_r = "\\""; // gone\n', 'let for_r = "\\"";\n'),
    ("a // one /* two\nb */ c\n", "a\nb */ c\n"),
    ("a / b /* // */ / c\n", "a / b   / c\n"),
    ("a /* never closed\nb\n", "a\n"),
)


PROOF = "-- gone\na : b -- gone\na--b\n"


def comments(tally):
    for text, wanted in HOSTILE:
        tally.expect("without comments: %r" % text, without_comments("src/a.rt", text), wanted)
    tally.expect("a comment in a proof", without_comments("proofs/A.antt", PROOF), "a : b\na--b\n")


def code_by_bash(paths):
    """What the launcher takes for the code of files, by their names."""
    script = '. "$0/tools/sources.bash" && printf "%s\\0" "$@" | code_of_list'
    ran = subprocess.run(["bash", "-c", script, TOP, *paths], capture_output=True, text=True, check=True)
    found = {}
    for line in ran.stdout.removesuffix("\n").split("\n"):
        if line.startswith("file "):
            found[line[len("file ") :]] = lines = []
        else:
            lines.append(line[1:] + "\n")
    return {path: "".join(lines) for path, lines in found.items()}


def sums_of_launcher(tally, room):
    """The launcher and the rows of mutations have one view of what is a comment: in hostile texts and in all sources."""
    paths = {write(room, "hostile/%d.rt" % number, text): text for number, (text, _) in enumerate(HOSTILE)}
    paths[write(room, "hostile/a.antt", PROOF)] = PROOF
    for folder in glob.glob(os.path.join(TOP, "crates", "*", "")):
        for path in files_of(folder):
            with open(path, encoding="utf-8") as file:
                paths[path] = file.read()
    found = code_by_bash(sorted(paths))
    for path, text in paths.items():
        tally.count("the code of " + path, "" if found.get(path, "") == without_comments(path, text) else "the launcher has another: %r" % found.get(path, "")[:300])


class Tried:
    """A crate whose edits were tried, with what was said of them."""

    def __init__(self, source, edits, refused, wrong):
        self.name, self.source, self.edits = "small", source, edits
        self.refused, self.wrong, self.checks = refused, wrong, 1


class Counted:
    """A tally that keeps what it is told."""

    def __init__(self):
        self.told = []

    def count(self, what, wrong=""):
        self.told.append((what, wrong))


def book(tally, room):
    top = os.path.join(room, "book")
    source = os.path.join(top, "crates", "small")
    write(source, "src/lib.rt", SOURCE)
    edit = write(top, "checks/edits/small/good.edit", "file: src/lib.rt\nold:     n / 2\nnew:     n / 3\n")
    counted = Counted()
    kept = Book(top, {"small": []}, "l", counted)
    with contextlib.redirect_stdout(io.StringIO()):
        for refused, wrong, rows, stale in (({edit: "small::half: a goal"}, {}, [("small", "good")], {}), ({}, {edit: "NOT REFUSED"}, [], {"small": [edit]})):
            kept.add(Tried(source, [edit], refused, wrong), kept.sources("small"))
            tally.expect("the rows after a try", list(rows_in(kept.path)), rows)
            tally.expect("the stale edits after it", stale_of(kept, {"small": [edit]}), stale)
        begun = kept.sources("small")
        write(source, "src/lib.rt", SOURCE.replace("half(n) + plain(n)", "plain(n) + half(n)"))
        kept.add(Tried(source, [edit], {edit: "small::half: a goal"}, {}), kept.sources("small"))
        tally.expect("a body that the edit's function does not see", stale_of(kept, {"small": [edit]}), {})
        kept.add(Tried(source, [edit], {edit: "small::half: a goal"}, {}), begun)
    told = [("small/good", ""), ("small/good.edit", "NOT REFUSED"), ("small/good", ""), ("small/small", "its texts changed meanwhile")]
    tally.expect("what the tries counted", counted.told, told)
    turns(tally, top, kept)


def turns(tally, top, kept):
    """The order of a turn: the stale first, then by the day."""
    rows, edits = rows_in(kept.path), {}
    for name, day in (("b", "2026-01-02"), ("c", "2026-01-01")):
        write(top, "crates/%s/src/lib.rt" % name, SOURCE)
        edits[name] = [write(top, "checks/edits/%s/good.edit" % name, "file: src/lib.rt\nold:     n / 2\nnew:     n / 3\n")]
        kept.uses[name] = []
        row = {"refused_by": "%s::half: a goal" % name}
        rows[name, "good"] = {"crate": name, "edit": "good", **sums_now(Sources(top, kept.uses), name, edits[name][0], row, "l"), "tried": day, **row}
    write_rows(kept.path, rows)
    tally.expect("those tried longest ago", [it for it, _ in turn_of(kept, edits)], ["c", "b"])
    write(top, "crates/b/src/lib.rt", SOURCE.replace("n / 2 }", "n / 3 }"))
    tally.expect("the stale first", [it for it, _ in turn_of(kept, edits)], ["b", "c"])


def memory(tally, room):
    for processors, free, wanted in ((4, 4 * BYTES, 4), (4, 4 * BYTES - 1, 3), (4, 0, 1), (2, 40 * BYTES, 2)):
        tally.expect("crates at once, %d processors, %d bytes" % (processors, free), at_once(processors, free), wanted)
    write(room, "new/memory.max", "5000\n")
    write(room, "new/memory.current", "2000\n")
    write(room, "old/memory.limit_in_bytes", "900\n")
    write(room, "old/memory.usage_in_bytes", "1000\n")
    write(room, "free/memory.max", "max\n")
    write(room, "free/memory.current", "2000\n")
    found = [room_in(os.path.join(room, it)) for it in ("new", "old", "free", "none")]
    tally.expect("what control groups leave", found, [3000, 0, None, None])
    tally.expect("the groups of a process, one hierarchy", list(groups_of(["0::/a/b\n"], "/g")), ["/g/a/b", "/g/a", "/g"])
    tally.expect("the groups of a process, several", list(groups_of(["5:cpu:/a\n", "4:memory:/a\n"], "/g")), ["/g/memory/a", "/g/memory"])


def costs(tally, room):
    folder = os.path.join(room, "kept")
    for number, name in enumerate(["specs.A", "proofs.runs.step.Lts", "proofs.runs.step.Proof", "proofs.runs.step", "proofs.Sums"]):
        os.utime(write(folder, "Rattle-small-%s.oantt" % name, ""), (1000 + 2 * number, 1000 + 2 * number))
    found = costs_of(folder, "small")
    tally.expect("a function's code and proof", (found["runs::step"]["code"], found["runs::step"]["proof"]), (2, 2))
    tally.expect("a file of lemmas", found["Sums"], {"lemmas": 2})
    tally.expect("the owner of a module of another crate", owner_of("Rattle-other-proofs.a.Lts", "small"), (None, "specs"))


def helps(tally, room):
    """Each tool says what it does, in a folder in which nothing may be written."""
    folder = os.path.join(TOP, "tools")
    os.mkdir(os.path.join(room, "empty"))
    for name in sorted(os.listdir(folder)):
        tool = os.path.join(folder, name)
        if os.path.isfile(tool) and os.access(tool, os.X_OK):
            ran = subprocess.run([tool, "--help"], cwd=os.path.join(room, "empty"), capture_output=True, text=True)
            tally.count(name + " --help", "" if ran.returncode == 0 and len(ran.stdout) > 40 else "status %d: %s" % (ran.returncode, ran.stderr))
    tally.expect("what --help wrote", os.listdir(os.path.join(room, "empty")), [])


def main():
    tally = Tally("gate_tools")
    with tempfile.TemporaryDirectory() as room:
        functions(tally)
        edits(tally, room)
        refusals(tally)
        rows(tally, room)
        comments(tally)
        sums_of_launcher(tally, room)
        book(tally, room)
        memory(tally, room)
        costs(tally, room)
        helps(tally, room)
    return tally.end()


if __name__ == "__main__":
    sys.exit(main())
