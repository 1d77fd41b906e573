"""The crates of crates.txt, and what the proof of each takes: seconds, seconds of a processor, and the peak of its memory."""

import csv
import os

COLUMNS = ["seconds", "cpu_seconds", "peak_mb"]
# The crate of the program.
PROGRAM = "interlaken_main"


def graph_of(path):
    """Each crate of a crates.txt, in its order, with those of its crates that it stands on."""
    uses = {}
    with open(path) as file:
        for line in file:
            if line[0].isalpha():
                head, _, below = line.partition(":")
                uses[head.split()[0]] = below.split()
    return {name: [it for it in below if it in uses] for name, below in uses.items()}


def costs_in(path):
    """The rows of a file of costs by their crates; none if the file is absent."""
    if not os.path.exists(path):
        return {}
    with open(path, newline="") as file:
        return {row["crate"]: {key: float(row[key]) for key in COLUMNS} for row in csv.DictReader(file)}


def write_costs(path, costs):
    with open(path, "w", newline="") as file:
        writer = csv.writer(file, lineterminator="\n")
        writer.writerow(["crate"] + COLUMNS)
        for name, cost in costs.items():
            writer.writerow([name] + ["%.0f" % cost[key] for key in COLUMNS])


def above(uses, name):
    """The crates that stand on this one."""
    found = set()
    for it in uses:  # each stands after those that it stands on
        if found.intersection(uses[it]) or name in uses[it]:
            found.add(it)
    return found


def layers_of(path):
    """The layers of a crates.txt, each a comment with the crates below it."""
    layers = []
    with open(path) as file:
        for line in file:
            if line.startswith("#"):
                layers.append((line.lstrip("# ").rstrip(), []))
            elif line[0].isalpha() and layers:
                layers[-1][1].append(line.partition(":")[0].split()[0])
    return [(name, crates) for name, crates in layers if crates]


def with_above(uses, costs, name):
    """The seconds of a processor that a change of a crate costs: its own, and those of the crates above it."""
    return sum(costs[it]["cpu_seconds"] for it in above(uses, name) | {name} if it in costs)


def layer_table(uses, costs, layers):
    yield "| layer | crates | a change proves, in the mean | processor min | at most |"
    yield "|---|---|---|---|---|"
    for layer, crates in layers:
        minutes = [with_above(uses, costs, name) / 60 for name in crates]
        proved = sum(1 + len(above(uses, name)) for name in crates) / len(crates)
        yield "| %s | %d | %.0f crates | %.0f | %.0f, `%s` |" % (layer, len(crates), proved, sum(minutes) / len(minutes), max(minutes), crates[minutes.index(max(minutes))])


def table(uses, costs):
    yield "| crate | s | processor s | GB | crates above | with them, processor min |"
    yield "|---|---|---|---|---|---|"
    for name in uses:
        higher, row = above(uses, name), ["", "", ""]
        if name in costs:
            cost = costs[name]
            row = ["%.0f" % cost["seconds"], "%.0f" % cost["cpu_seconds"], "%.1f" % (cost["peak_mb"] / 1000)]
        with_them = with_above(uses, costs, name) / 60
        yield "| " + " | ".join(["`%s`" % name] + row + ["%d" % len(higher), "%.0f" % max(with_them, 1)]) + " |"


def chain(uses, costs):
    """The longest chain of crates, each of which stands on the one before, by their seconds."""
    longest = {}
    for name in uses:
        below = max((longest[it] for it in uses[name]), default=(0, []))
        longest[name] = (below[0] + costs.get(name, {"seconds": 0})["seconds"], below[1] + [name])
    return max(longest.values())


def sums(uses, costs):
    """The longest chain and the whole, and the crates of which nothing was measured."""
    seconds, names = chain(uses, costs)
    yield "Longest chain: %.0f s, %s." % (seconds, ", ".join("`%s`" % name for name in names))
    yield ""
    program = [name for name in uses if name == PROGRAM or PROGRAM in above(uses, name)]
    for what, names in (("The program", program), ("All", list(uses))):
        known = [costs[name]["cpu_seconds"] for name in names if name in costs]
        yield "%s: %d crates; the %d that were measured take %.0f s of a processor." % (what, len(names), len(known), sum(known))
        yield ""
    lacking = [name for name in uses if name not in costs]
    if lacking:
        yield "Not measured yet: %s." % ", ".join("`%s`" % name for name in lacking)
