"""The time that a build still takes."""

# The seconds of a crate of which no earlier build says them.
USUAL = 60
# The weight, in seconds, of the guess that this machine is as fast as that of the earlier build.
PRIOR = 60


class Guess:
    """From the seconds of an earlier build, scaled by what the crates that are done took now."""

    def __init__(self, uses, earlier, jobs):
        self.uses, self.jobs = uses, jobs
        self.seconds = {name: earlier.get(name, {}).get("seconds", USUAL) for name in uses}
        self.taken = self.expected = PRIOR
        # A crate with the longest chain of crates above it. A crates.txt has each crate after those that it stands on.
        self.chain = {}
        for name in reversed(list(uses)):
            self.chain[name] = self.seconds[name] + max((self.chain[it] for it in uses if name in uses[it]), default=0)

    def learn(self, name, seconds):
        """The crate is done, and took these seconds."""
        self.taken += seconds
        self.expected += self.seconds[name]

    def left(self, done=(), running=()):
        """The seconds that are left, if some crates are done and others run since so many seconds: the rest is played through,
        `jobs` crates at once, and first those with the longest chain above them."""
        pace = self.taken / self.expected
        now, done = 0, set(done)
        ends = {name: max(self.seconds[name] * pace - since, 0) for name, since in dict(running).items() if name in self.uses and name not in done}
        while len(done) < len(self.uses):
            ready = [name for name in self.uses if name not in done and name not in ends and done.issuperset(self.uses[name])]
            for name in sorted(ready, key=lambda it: -self.chain[it])[: max(self.jobs - len(ends), 0)]:
                ends[name] = now + self.seconds[name] * pace
            name = min(ends, key=ends.get)
            now = max(now, ends.pop(name))
            done.add(name)
        return now
