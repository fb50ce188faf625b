"""The relay: its sides, what a hook may ask of them, and a turn over a port, each step a line of the trace."""
from relay_rules.filters import Filter
from relay_rules.limits import Bucket, Group
from relay_rules.script import CLOCK, DIRS, KINDS, MARK, SIDES

PIECE, ASKS, ACCEPTS, REFS, LATEST = 16384, 256, 64, 2**32 - 1, 2**62
FLAGS = {"read": 1, "write": 2}


class Cut(Exception):
    """The turn ends here: "poll fault", "open fault", or the link of a hook that stopped the run."""


class End:
    """A side with its four buffers, marks and counts."""

    def __init__(self, settings, side, connecting, now):
        self.live, self.connecting, self.ended, self.failed, self.expired = True, connecting, False, False, False
        self.on = {way: True for way in DIRS}
        self.raw_in, self.input, self.output, self.raw_out = (bytearray() for _ in range(4))
        self.filter = {way: Filter(settings["filter"].get((side, way), "none")) for way in DIRS}
        marks, waits = settings["marks"].get(side, (0, 0, 0, 0)), settings["timeouts"].get(side, (0, 0))
        self.marks = {"read": marks[:2], "write": marks[2:]}
        self.waits, self.active = dict(zip(DIRS, waits)), {way: now for way in DIRS}
        limit = settings["rate"].get(side)
        self.bucket, self.group = limit and Bucket(limit, now), None
        self.refs, self.timer = 0, None
        self.held, self.place, self.shut, self.closed, self.cause = False, None, False, False, None
        self.read, self.moved, self.given = 0, 0, 0

    def lengths(self):
        return {"read": len(self.raw_in) + len(self.input), "write": len(self.output) + len(self.raw_out)}

    def full(self, run_hold):
        return self.marks["write"][1] or run_hold

    def room(self, way, peer):
        if not self.live or self.connecting or self.failed or not self.on[way]:
            return 0
        if way == "read":
            room = 0 if self.ended or not peer.live else (self.marks["read"][1] or PIECE) - self.lengths()["read"]
        else:
            room = 0 if self.shut else len(self.raw_out)
        if self.bucket:
            room = min(room, self.bucket.allowance(way))
        if self.group:
            room = min(room, self.group.share(way))
        return max(0, min(room, PIECE))

    def wants(self, way, peer):
        return self.room(way, peer) > 0 or way == "write" and self.live and self.connecting and not self.failed

    def spend(self, way, count):
        for kept in (self.bucket, self.group):
            if kept:
                kept.spend(way, count)


class Hook:
    """It asks what is planned for the n-th call of a kind."""

    def __init__(self):
        self.plans, self.calls = [], dict.fromkeys(KINDS, 0)

    def asks(self, why):
        kind = why.split(":")[0]
        self.calls[kind] += 1
        return [act for for_kind, nth, act in self.plans if (for_kind, nth) == (kind, self.calls[kind]) and act][:ASKS]


def pair(end):
    return (end[0], "out" if end[1] == "in" else "in")


class Relay:
    def __init__(self, script, port):
        self.settings, self.port, self.trace = script.settings, port, []
        self.ends, self.hooks, self.groups = {}, {}, [Group(*group) for group in script.settings["groups"]]
        for end, kind, nth, act in script.plans:
            self.hooks.setdefault(end, Hook()).plans.append((kind, nth, act))
        self.time, self.links, self.order = 0, 0, 0
        self.due, self.batch = {}, {}
        self.closing, self.most = 0, None  # closing turns made, and how many may be

    def put(self, *words):
        self.trace.append(" ".join(str(word) for word in words))

    def peer(self, end):
        return self.ends[pair(end)]

    def live(self):
        return [(end, it) for end, it in self.ends.items() if it.live]

    def open_links(self):
        return {link for (link, _), it in self.ends.items() if it.live}

    def wants(self, end):
        return [way for way in DIRS if self.ends[end].wants(way, self.peer(end))]

    def raise_due(self, end, why, flags=0):
        if end in self.hooks and self.ends[end].live:
            reasons = self.due.setdefault(end, {})
            reasons[why] = reasons.get(why, 0) | flags

    def turn(self):
        self.time = max(self.time, min(self.port.now(), LATEST))
        self.put("turn", self.time)
        self.pass_time()
        marks, waits = self.poll()
        if waits:
            self.accept()
        for end, ways in marks:
            self.serve(end, ways)
        self.dispatch()
        for link in range(self.links):
            self.carry(link, "in", "out")
            self.carry(link, "out", "in")
        for link in range(self.links):
            self.close(link)

    # time passes

    def pass_time(self):
        for kept in [it.bucket for _, it in self.live() if it.bucket] + self.groups:
            kept.refill(self.time)
        for _, _, end in sorted((*it.timer, end) for end, it in self.live() if it.timer and it.timer[0] <= self.time):
            self.ends[end].timer = None
            self.raise_due(end, "timer")
        for end, it in self.live():
            for way in DIRS:
                if it.waits[way]:
                    self.look_at(end, it, way)

    def look_at(self, end, it, way):
        if not it.wants(way, self.peer(end)):
            it.active[way] = self.time
        elif self.time - it.active[way] >= it.waits[way]:
            it.on[way], it.expired = False, True
            self.raise_due(end, "event", 0x40 | FLAGS[way])

    # the poll

    def moments(self):
        """The moments at which the poll has to be over."""
        for end, it in self.live():
            if it.timer:
                yield it.timer[0]
            for way in DIRS:
                if it.waits[way] and it.wants(way, self.peer(end)):
                    yield it.active[way] + it.waits[way]
            if it.bucket and min(it.bucket.level.values()) <= 0:
                yield it.bucket.next_tick(self.time)
        for group in self.groups:
            if group.members and any(group.rests.values()):
                yield group.next_tick(self.time)

    def poll(self):
        now = self.due or any(it.expired for _, it in self.live())
        moments = list(self.moments())
        self.put("poll", 0 if now else min(moments) - self.time if moments else "none")
        wants = [(end, self.wants(end)) for end, _ in self.live()]
        wants = [(end, ways) for end, ways in wants if ways]
        self.put_ways("want", wants)
        polled = self.port.poll(wants)
        if polled is None:
            self.put("pollfail")
            raise Cut("poll fault")
        self.put_ways("ready", polled[0])
        return polled

    def put_ways(self, name, ends):
        for end, ways in ends:
            self.put(name, *end, "".join(way[0] for way in ways))

    def accept(self):
        for _ in range(ACCEPTS):
            connected = self.port.accept()
            if connected == "fail":
                raise Cut("open fault")
            if connected == "notyet":
                return
            self.put("open", self.links, *([] if connected else ["wait"]))
            for side in SIDES:
                self.ends[self.links, side] = End(self.settings, side, side == "out" and not connected, self.time)
                if side in self.settings["member"]:
                    self.join((self.links, side), self.settings["member"][side])
            self.links += 1

    # an end is served

    def serve(self, end, ways):
        it = self.ends[end]
        if it.connecting and "write" in ways:
            return self.connect(end, it)
        if "read" in ways and (room := it.room("read", self.peer(end))):
            self.read(end, it, room)
        if "write" in ways and (room := it.room("write", self.peer(end))):
            self.write(end, it, room)
        return None

    def connect(self, end, it):
        answer = self.port.connect_state(end)
        self.put("conn", *end, answer)
        if answer == "ok":
            it.connecting = False
            self.raise_due(end, "connected")
        elif answer == "fail":
            self.fault(end, it, "write", 0x20)

    def fault(self, end, it, way, flag):
        it.on[way] = False
        it.failed |= flag == 0x20
        it.ended |= flag == 0x10
        self.raise_due(end, "event", flag | FLAGS[way])

    def read(self, end, it, room):
        answer = self.port.read(end, room)
        got = isinstance(answer, bytes)
        self.put("read", *end, room, *(["got", answer.hex()] if got else [answer]))
        if got:
            it.read += len(answer)
            it.active["read"] = self.time
            it.spend("read", len(answer))
            it.raw_in += answer
            self.filter_in(it, False)
            self.heard(end, "read")
        elif answer != "notyet":
            self.fault(end, it, "read", 0x10 if answer == "end" else 0x20)

    def write(self, end, it, room):
        answer = self.port.write(end, bytes(it.raw_out[:room]))
        took = isinstance(answer, bytes)
        self.put("write", *end, room, *(["took", answer.hex()] if took else [answer]))
        if took:
            it.given += len(answer)
            it.active["write"] = self.time
            it.spend("write", len(answer))
            del it.raw_out[: len(answer)]
            self.heard(end, "write")
        elif answer == "fail":
            self.fault(end, it, "write", 0x20)

    def heard(self, end, way):
        """It becomes due where its low mark is met."""
        it = self.ends[end]
        length, low = it.lengths()[way], it.marks[way][0]
        if length >= low if way == "read" else length <= low:
            self.raise_due(end, way)

    # hooks

    def dispatch(self):
        self.batch, self.due = self.due, {}
        while self.batch:
            end = next(iter(self.batch))
            reasons = self.batch[end]
            why = min(reasons, key=KINDS.index)
            flags = reasons.pop(why)
            if not reasons:
                del self.batch[end]
            self.fire(end, f"event:{flags:02x}" if why == "event" else why)

    def fire(self, end, why):
        self.put("fired", *end, why)
        stops = False
        for act in self.hooks[end].asks(why):
            answer = self.answer(*act)
            values = [word for value in act[1:] for word in (value if isinstance(value, tuple) else [value])]
            self.put("asked", *end, act[0], *("none" if word is None else word for word in values), answer)
            if answer == "ok":
                stops |= act[0] == "stop"
                getattr(self, "do_" + act[0])(*act[1:])
        if stops:
            raise Cut(end[0])

    def answer(self, name, end=None, *values):
        it = self.ends.get(end)
        if name == "stop":
            return "ok"
        if not it or not it.live and not (name == "decref" and it.refs):
            return "notlive"
        most = {"marks": MARK, "timeouts": CLOCK, "timer": CLOCK}
        if name in most and max(value for value in values if value not in DIRS) > most[name]:
            return "badvalue"
        if name == "decref" and not it.refs or name == "leave" and not it.group:
            return "badvalue"
        if name == "join" and values[0] >= len(self.groups):
            return "nogroup"
        return "toomanyrefs" if name == "incref" and it.refs == REFS else "ok"

    def do_stop(self):
        pass

    def do_free(self, end):
        self.free(end, "hook")

    def do_enable(self, end, way):
        self.ends[end].on[way] = True

    def do_disable(self, end, way):
        self.ends[end].on[way] = False

    def do_marks(self, end, way, low, high):
        self.ends[end].marks[way] = (low, high)

    def do_timeouts(self, end, *waits):
        self.ends[end].waits, self.ends[end].active = dict(zip(DIRS, waits)), {way: self.time for way in DIRS}

    def do_rate(self, end, limit):
        it = self.ends[end]
        if it.bucket and limit:
            it.bucket.change(limit, self.time)
        else:
            it.bucket = limit and Bucket(limit, self.time)

    def join(self, end, group):
        self.ends[end].group = self.groups[group]
        self.groups[group].members.add(end)

    def do_join(self, end, group):
        self.leave(end)
        self.join(end, group)

    def leave(self, end):
        if self.ends[end].group:
            self.ends[end].group.members.discard(end)
            self.ends[end].group = None

    do_leave = leave

    def do_trigger(self, end, way):
        self.heard(end, way)

    def do_timer(self, end, delay):
        self.order += 1
        self.ends[end].timer = (self.time + delay, self.order)

    def do_cancel(self, end):
        self.ends[end].timer = None

    def do_incref(self, end):
        self.ends[end].refs += 1

    def do_decref(self, end):
        self.ends[end].refs -= 1

    def free(self, end, cause):
        it = self.ends[end]
        self.put("freed", *end, cause, it.moved, it.given)
        self.leave(end)
        it.live, it.timer, it.bucket, it.cause = False, None, None, cause
        for kept in (it.raw_in, it.input, it.output, it.raw_out):
            kept.clear()
        self.due.pop(end, None)
        self.batch.pop(end, None)

    # bytes pass

    def filter_in(self, it, ends):
        if it.filter["read"].run(it.raw_in, it.input, it.marks["read"][1] or PIECE, ends) and it.place is None:
            it.place = it.filter["read"].bad

    def carry(self, link, source, target):
        """Rounds of one direction until one changes nothing."""
        s, t = self.ends[link, source], self.ends[link, target]
        was = None
        while t.live and was != (was := self.seen(s, t)):
            full = t.full(self.settings["hold"])
            t.held = len(t.raw_out) >= full or t.held and len(t.raw_out) > full // 2
            if s.live:
                self.filter_in(s, s.ended)
            if s.live and not t.held and not t.output:
                s.moved += len(s.input)
                t.output += s.input
                s.input.clear()
            ends = s.live and s.ended and s.filter["read"].finished and not s.input
            if not t.held and t.filter["write"].run(t.output, t.raw_out, full, ends) and t.place is None:
                t.place = t.filter["write"].bad

    def seen(self, s, t):
        ways = (s.filter["read"], t.filter["write"])
        return t.held, s.moved, [(way.used, way.finished, way.bad) for way in ways]

    # the turn closes

    def close(self, link):
        ends = [(link, side) for side in SIDES]
        for end in ends:
            it = self.ends[end]
            cause = "failed" if it.failed else "timeout" if it.expired else f"filter:{it.place}" if it.place is not None else None
            if it.live and cause:
                self.free(end, cause)
        for end in ends:
            self.close_write(end, self.ends[end], self.peer(end))
        if all(self.ends[end].live and self.ends[end].shut for end in ends):
            for end in ends:
                self.free(end, "done")
        for end in ends:
            it = self.ends[end]
            if it.live and not self.peer(end).live and not it.lengths()["write"]:
                self.free(end, "peergone")
        for end in ends:
            it = self.ends[end]
            if not it.live and not it.closed:
                it.closed = True
                self.put("close", *end)

    def close_write(self, end, s, t):
        """From this end to its peer: writing ends there once all is given."""
        empty = not (s.raw_in or s.input or t.output or t.raw_out)
        over = s.live and t.live and s.ended and t.filter["write"].finished and empty
        if over and not t.connecting and not t.shut:
            t.shut = True
            self.put("closewrite", *pair(end))

    def report(self):
        lines, states = [], []
        for link in range(self.links):
            ends = [self.ends[link, side] for side in SIDES]
            causes = [it.cause for it in ends]
            states.append("done" if causes == ["done", "done"] else "open" if None in causes else "gone")
            counts = " ".join(f"{side} {it.read} {it.given}" for side, it in zip(SIDES, ends))
            lines.append(f"link {link} {states[-1]} {counts}")
        done, live, gone = (states.count(state) for state in ("done", "open", "gone"))
        return [*lines, f"done {done} open {live} gone {gone}"]
