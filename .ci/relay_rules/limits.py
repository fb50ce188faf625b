"""Buckets of sides and of groups. A level is in bytes; reading and writing have one each."""
from relay_rules.script import DIRS


def rate(limit, way):
    return limit.read_rate if way == "read" else limit.write_rate


def burst(limit, way):
    return limit.read_burst if way == "read" else limit.write_burst


class Bucket:
    """It starts at the rate and gains that with each tick, up to the burst."""

    def __init__(self, limit, now):
        self.limit, self.tick = limit, now // limit.tick
        self.level = {way: rate(limit, way) for way in DIRS}

    def refill(self, now):
        ticks = now // self.limit.tick - self.tick
        if ticks > 0:
            self.tick += ticks
            for way in DIRS:
                self.level[way] = min(self.level[way] + ticks * rate(self.limit, way), burst(self.limit, way))

    def change(self, limit, now):
        self.limit, self.tick = limit, now // limit.tick
        self.level = {way: min(self.level[way], burst(limit, way)) for way in DIRS}

    def allowance(self, way):
        return max(self.level[way], 0)

    def spend(self, way, count):
        self.level[way] -= count

    def next_tick(self, now):
        return (now // self.limit.tick + 1) * self.limit.tick


class Group(Bucket):
    """A bucket of all its members, from the clock 0 on. Once it is at 0 or below it rests until a turn begins with the least share."""

    def __init__(self, limit, share):
        super().__init__(limit, 0)
        self.least = min(share, limit.read_rate, limit.write_rate)
        self.rests, self.members = {way: False for way in DIRS}, set()

    def refill(self, now):
        super().refill(now)
        for way in DIRS:
            self.rests[way] &= self.level[way] < self.least

    def share(self, way):
        return 0 if self.rests[way] else max(self.level[way] // len(self.members), self.least)

    def spend(self, way, count):
        super().spend(way, count)
        self.rests[way] |= self.level[way] <= 0
