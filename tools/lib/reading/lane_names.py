"""The order of files by their names, if these differ in a number only."""

import re

NUMBER = re.compile(r"\d+")


def in_order(names):
    """Names in the order of the one number in which they differ; as they are, if they differ in more, or two have the same."""
    parts = [NUMBER.split(name) for name in names]
    numbers = [NUMBER.findall(name) for name in names]
    if len({tuple(own) for own in parts}) != 1:
        return list(names)
    places = [place for place in range(len(numbers[0])) if len({int(own[place]) for own in numbers}) > 1]
    if len(places) != 1 or len({int(own[places[0]]) for own in numbers}) < len(names):
        return list(names)
    return sorted(names, key=lambda name: int(NUMBER.findall(name)[places[0]]))
