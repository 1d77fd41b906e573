"""The rules of docs/DEFINITIONS.md, and which of them a definition states."""

import os
import re

PAGE = os.path.join("docs", "DEFINITIONS.md")
HEADING = re.compile(r"## (.*)")
RULE = re.compile(r"- \*\*(.+?)\*\*(?: \(([^)]*`[^)]*)\))?(.*)")


class Rule:
    """A rule: its line on the page, its title, the names that stand in its brackets, the crates of its part, and its text."""

    def __init__(self, line, title, names, crates, text):
        self.line, self.title, self.names, self.crates, self.text = line, title, names, crates, text


def read_rules(top):
    rules, crates = [], set()
    with open(os.path.join(top, PAGE), encoding="utf-8") as file:
        for number, line in enumerate(file.read().split("\n"), 1):
            heading, rule = HEADING.match(line), RULE.match(line)
            if heading:
                crates = set(re.findall(r"`(\w+)`", line))
            elif rule:
                rules.append(Rule(number, rule[1], set(re.findall(r"`(\w+)`", rule[2] or "")), crates, [rule[3].lstrip(" .:")]))
            elif rules and line.startswith("  "):
                rules[-1].text.append(line)
    return rules


def rules_of(rules, reached):
    """The rule of each definition: one that names it in its brackets; or the rule of the definition of its file that names it first; or one
    that names its file; or the rule of the definition of its crate that names it first."""
    found = {}
    for item in reached.order:
        user = reached.users[item.path][0]
        theirs = None if isinstance(user, str) or user.crate != item.crate else found.get(user.path)
        rule = named(rules, item, item.name) or (theirs if theirs and user.stem == item.stem else None)
        rule = rule or named(rules, item, item.stem) or theirs
        if rule:
            found[item.path] = rule
    return found


def named(rules, item, name):
    """The rule of an item's crate that has this name in its brackets."""
    return next((rule for rule in rules if item.crate in rule.crates | rule.names and name in rule.names), None)
