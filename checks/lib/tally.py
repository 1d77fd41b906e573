"""How a check counts what it tried, and how it ends.

    tally = Tally("rows")
    tally.count("a row", "status 4 and not 0")    what was tried, and what is wrong with it: nothing if it passed
    tally.expect("a status", found, wanted)       passes if the two are equal
    sys.exit(tally.end())                         prints the last line, and gives the exit status

The last line of a check is `NAME: P passed, F failed`, and its exit status is 1 where something failed or nothing passed. If a
tool is missing the last line is `NAME: skipped, no TOOL (Debian package PACKAGE)`, and the exit status 77.
"""

import sys

# A check that has failed this often, and passed nothing, gives up.
PATIENCE = 20
# No more of a value is printed.
SHOWN = 400


def shown(value):
    text = repr(value)
    return text if len(text) <= SHOWN else text[:SHOWN] + ".."


class Tally:
    def __init__(self, name):
        self.name, self.passed, self.failed = name, 0, 0
        sys.excepthook = self.break_off

    def break_off(self, *error):
        """An exception ends the check; that is a failure like others."""
        sys.__excepthook__(*error)
        self.failed += 1
        self.end()

    def count(self, what, wrong=""):
        """One thing was tried. If it failed, `wrong` says why, and that is printed."""
        if not wrong:
            self.passed += 1
            return
        self.failed += 1
        print("%s: %s" % (what, wrong), flush=True)
        if self.passed == 0 and self.failed >= PATIENCE:
            print("%s: nothing passed so far, and the rest is not tried" % self.name)
            sys.exit(self.end())

    def expect(self, what, found, wanted):
        self.count(what, "" if found == wanted else "%s, and not %s" % (shown(found), shown(wanted)))

    def give_up(self, what, wrong):
        """What the rest stands on failed, so that the check ends here."""
        self.count(what, wrong)
        sys.exit(self.end())

    def skip(self, tool, source):
        """A tool is missing without which nothing can be tried: the check ends here. `source` says where the tool is from."""
        print("%s: skipped, no %s (%s)" % (self.name, tool, source), flush=True)
        sys.exit(77)

    def not_tried(self, tool, package, what):
        """A part cannot be tried on this machine; `package` is the Debian package of the tool, or none if there is none."""
        source = " (Debian package %s)" % package if package else ""
        print("%s: not tried, no %s%s: %s" % (self.name, tool, source, what), flush=True)

    def end(self):
        """Prints the last line, and gives the exit status."""
        if self.passed + self.failed == 0:
            print("%s: nothing was tried" % self.name)
        print("%s: %d passed, %d failed" % (self.name, self.passed, self.failed), flush=True)
        return 0 if self.passed and not self.failed else 1
