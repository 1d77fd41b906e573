"""A VCD file: scopes of signals, and their values in order of time."""

from collections import namedtuple
from heapq import merge
from itertools import groupby
from operator import itemgetter

# A signal by its kind (`wire`, `integer`, `real` or `string`), its bits, and its name.
Signal = namedtuple("Signal", "kind bits name")
# Signals with one name before theirs. `changes` yields (time, values) in order of time, a value for each signal: a number, a text,
# or None if the signal has none.
Scope = namedtuple("Scope", "name signals changes")
FIRST, LAST = ord("!"), ord("~")
time_of = itemgetter(0)


def identifier(number):
    """The short name of a signal in the file."""
    text = chr(FIRST + number % (LAST - FIRST + 1))
    rest = number // (LAST - FIRST + 1)
    return text + (identifier(rest - 1) if rest else "")


def value_text(signal, short, value):
    """The line that sets a signal to a value."""
    if signal.kind == "string":
        return "s%s %s\n" % (value, short)
    if signal.kind == "real":
        return "r%d %s\n" % (value, short)
    if signal.bits == 1:
        return "%s%s\n" % ("x" if value is None else "%d" % value, short)
    return "b%s %s\n" % ("x" if value is None else format(value, "b"), short)


class Column:
    """A scope in a file: the short names of its signals, and the values that they have."""

    def __init__(self, scope, first):
        self.scope = scope
        self.shorts = [identifier(first + place) for place in range(len(scope.signals))]
        self.values = [()] * len(scope.signals)

    def head(self):
        lines = ["$var %s %d %s %s $end\n" % (signal.kind, signal.bits, short, signal.name) for signal, short in zip(self.scope.signals, self.shorts)]
        return "$scope module %s $end\n%s$upscope $end\n" % (self.scope.name, "".join(lines))

    def changes(self):
        return ((time, self, values) for time, values in self.scope.changes)

    def take(self, values):
        """The lines of the signals whose values are others than before."""
        texts = [value_text(signal, short, value) for signal, short, value, old in zip(self.scope.signals, self.shorts, values, self.values) if value != old]
        self.values = values
        return "".join(texts)


def write_vcd(file, top, scopes, end):
    """Writes the scopes to a file that ends at a time."""
    columns, number = [], 0
    for scope in scopes:
        columns.append(Column(scope, number))
        number += len(scope.signals)
    file.write("$timescale 1 ns $end\n$scope module %s $end\n" % top)
    file.writelines(column.head() for column in columns)
    file.write("$upscope $end\n$enddefinitions $end\n")
    for time, changes in groupby(merge(*(column.changes() for column in columns), key=time_of), key=time_of):
        last = {column: values for _, column, values in changes}
        text = "".join(column.take(values) for column, values in last.items())
        if text and time < end:
            file.write("#%d\n%s" % (time, text))
    file.write("#%d\n" % end)
