"""Limits as a trace shows them, without buckets: a level is a least over all turns since its limit was set, and over every pair of turns
at most burst + rate * ticks bytes were moved; by a group at most its least share - 1 more."""
from relay_rules.limits import burst, rate
from relay_rules.script import DIRS, limit


class Broken(Exception):
    pass


def ought(holds, what):
    if not holds:
        raise Broken(what)


class Account:
    """What was moved one way under one limit, turn by turn."""

    def __init__(self, limit, way, now, opening, more=0):
        self.rate, self.burst, self.tick, self.more = rate(limit, way), burst(limit, way), limit.tick, more
        self.since, self.opening, self.turns = now, opening, []

    def ticks(self, start, end):
        return end // self.tick - start // self.tick

    def level(self):
        """The least of what each turn leaves, less what this turn moved."""
        if not self.turns:
            return self.opening
        now, moved = self.turns[-1]
        before = sum(count for _, count in self.turns[:-1])
        least = self.opening + self.rate * self.ticks(self.since, now) - before
        for start, count in self.turns:
            least = min(least, self.burst + self.rate * self.ticks(start, now) - before)
            before -= count
        return least - moved

    def check(self):
        """Looks at every pair of turns, and says at how many."""
        for i, (start, _) in enumerate(self.turns):
            moved = 0
            for now, count in self.turns[i:]:
                moved += count
                most = self.burst + self.rate * self.ticks(start, now) + self.more
                ought(moved <= most, f"{moved} bytes moved from {start} to {now} ms, at most {most}")
        return len(self.turns) * (len(self.turns) + 1) // 2


class Kept:
    """What holds of each side and group as a trace goes on."""

    def __init__(self, script):
        self.settings, self.time, self.checks = script.settings, 0, 0
        self.sides, self.member, self.live, self.groups, self.over = {}, {}, set(), [], []
        for limit, share in self.settings["groups"]:
            least = min(share, limit.read_rate, limit.write_rate)
            accounts = {way: Account(limit, way, 0, rate(limit, way), least - 1) for way in DIRS}
            self.groups.append({"least": least, "rests": set(), **accounts})

    def accounts(self):
        return [kept[way] for kept in [*self.sides.values(), *self.groups] for way in DIRS]

    def turn(self, now):
        self.time = now
        for account in self.accounts():
            account.turns.append((now, 0))
        for group in self.groups:
            group["rests"] -= {way for way in DIRS if group[way].level() >= group["least"]}

    def open(self, link):
        for side in ("in", "out"):
            self.live.add((link, side))
            if side in self.settings["rate"]:
                self.set_rate((link, side), self.settings["rate"][side])
            if side in self.settings["member"]:
                self.member[link, side] = self.settings["member"][side]

    def set_rate(self, end, limit):
        old = self.sides.pop(end, None)
        self.over += [old[way] for way in DIRS] if old else []
        if limit:
            opening = {way: min(old[way].level(), burst(limit, way)) if old else rate(limit, way) for way in DIRS}
            self.sides[end] = {way: Account(limit, way, self.time, opening[way]) for way in DIRS}

    def share(self, group, way):
        kept = self.groups[group]
        members = sum(at == group for at in self.member.values())
        return 0 if way in kept["rests"] else max(kept[way].level() // members, kept["least"])

    def moved(self, end, way, room, count):
        self.checks += 1
        if end in self.sides:
            account = self.sides[end][way]
            ought(room <= account.level(), f"{way} of {end} with room {room}, level {account.level()}")
            self.spend(account, count)
        if end in self.member:
            group = self.groups[self.member[end]]
            share = self.share(self.member[end], way)
            ought(room <= share, f"{way} of {end} with room {room}, share {share}")
            self.spend(group[way], count)
            group["rests"] |= {way} if group[way].level() <= 0 else set()

    def spend(self, account, count):
        now, moved = account.turns.pop()
        account.turns.append((now, moved + count))

    def line(self, words):
        end = (int(words[1]), words[2]) if len(words) > 2 else None
        if words[0] == "turn":
            self.turn(int(words[1]))
        elif words[0] == "open":
            self.open(int(words[1]))
        elif words[0] in DIRS:
            self.moved(end, words[0], int(words[3]), len(words[5]) // 2 if len(words) == 6 else 0)
        elif words[0] == "asked" and words[-1] == "ok":
            self.asked(words[3], words[4:-1])
        elif words[0] == "freed":
            self.member.pop(end, None)
            self.set_rate(end, None)

    def asked(self, act, values):
        end = (int(values[0]), values[1]) if values else None
        if act == "rate":
            self.set_rate(end, None if values[2] == "none" else limit(values[2:]))
        elif act == "join":
            self.member[end] = int(values[2])
        elif act == "leave":
            del self.member[end]


def checks(script, trace):
    """Raises Broken where a limit isn't kept. Says how many rooms and pairs of turns were looked at."""
    kept = Kept(script)
    for line in trace:
        kept.line(line.split())
    return kept.checks + sum(account.check() for account in kept.over + kept.accounts())
