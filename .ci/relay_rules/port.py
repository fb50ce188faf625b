"""What a script answers to the calls of the relay, and a port whose k-th call of a kind fails. In closing turns every end takes every
write and is connected unless the script decided otherwise."""
from collections import defaultdict


class ScriptPort:
    def __init__(self, turns):
        self.turns, self.last, self.links = list(turns), 0, []
        self.pending, self.room = defaultdict(bytearray), defaultdict(int)
        self.over, self.wfail, self.decided = {}, set(), {}
        self.undecided, self.spur, self.pollfail, self.accepted = set(), set(), False, 0
        self.step = 0  # by how much the clock goes on with each closing turn, once they begin

    def now(self):
        self.spur, self.pollfail = set(), False
        if self.turns:
            self.last, lines = self.turns.pop(0)
            for line in lines:
                self.apply(*line)
        else:
            self.last += self.step
        return self.last

    def waiting(self):
        """How many links wait to be accepted."""
        return len(self.links) - self.accepted

    def apply(self, name, end=None, value=None):
        if name == "open":
            if end:
                self.undecided.add((len(self.links), "out"))
            self.links.append(end is None)
        elif name == "conn":
            self.decided.setdefault((end, "out"), value)
        elif name == "r":
            self.pending[end] += value
        elif name == "w":
            self.room[end] += float("inf") if value is None else value
        elif name in ("eof", "rfail") and self.over.get(end) != "fail":
            self.over[end] = "end" if name == "eof" else "fail"
        elif name == "wfail":
            self.wfail.add(end)
        elif name == "spur":
            self.spur.add(end)
        elif name == "pollfail":
            self.pollfail = True

    def can(self, end, way):
        if end in self.spur:
            return True
        if way == "read":
            return bool(self.pending[end]) or end in self.over
        if self.step:
            return True
        if end in self.undecided:
            return end in self.decided
        return self.room[end] > 0 or end in self.wfail

    def poll(self, wants):
        """The marks among these wants, and whether a link waits; None where it fails."""
        if self.pollfail:
            return None
        marks = ((end, [way for way in ways if self.can(end, way)]) for end, ways in wants)
        return [(end, ways) for end, ways in marks if ways], self.waiting() > 0

    def accept(self):
        """Whether the next link is connected; "notyet" where none waits."""
        if not self.waiting():
            return "notyet"
        self.accepted += 1
        return self.links[self.accepted - 1]

    def connect_state(self, end):
        if end not in self.decided and not self.step:
            return "wait"
        if not self.decided.get(end, True):
            return "fail"
        self.undecided.discard(end)
        return "ok"

    def read(self, end, room):
        got = bytes(self.pending[end][:room])
        del self.pending[end][:room]
        return got or self.over.get(end, "notyet")

    def write(self, end, data):
        if self.step:
            return data
        took = data[: int(min(len(data), self.room[end]))]
        self.room[end] -= len(took)
        return took or ("fail" if end in self.wfail else "notyet")


class FailPort:
    """The k-th call of one kind fails, and the port inside hears nothing of it."""

    def __init__(self, inner, kind, k):
        self.inner, self.kind, self.left = inner, kind, k

    def now(self):
        return self.inner.now()

    def call(self, kind, *values):
        self.left -= kind == self.kind
        if kind == self.kind and self.left == 0:
            return None if kind == "poll" else "fail"
        return getattr(self.inner, kind)(*values)

    def poll(self, wants):
        return self.call("poll", wants)

    def accept(self):
        return self.call("accept")

    def connect_state(self, end):
        return self.call("connect_state", end)

    def read(self, end, room):
        return self.call("read", end, room)

    def write(self, end, data):
        return self.call("write", end, data)
