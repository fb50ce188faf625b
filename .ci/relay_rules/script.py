"""The grammar of `evplay relay`: a text to its settings, plans and turns, or its first bad line."""
import re
from collections import namedtuple

SIDES = ("in", "out")
DIRS = ("read", "write")
FILTERS = ("none", "to-crlf", "to-lf", "hex-out", "hex-in")
KINDS = ("connected", "read", "write", "event", "timer")
MARK, CLOCK, BURST, TICK, ANY = 2**24, 2**40, 2**40, 2**20, 2**62
NUMBER = re.compile(r"0|[1-9][0-9]*")
HEX = re.compile(r"([0-9a-fA-F]{2}){1,32768}")

Limit = namedtuple("Limit", "read_rate read_burst write_rate write_burst tick")
Script = namedtuple("Script", "settings plans turns")


class Bad(Exception):
    """This line isn't in the grammar; its number."""


def ought(holds):
    if not holds:
        raise ValueError


def number(word, low=0, high=ANY):
    ought(NUMBER.fullmatch(word) and low <= int(word) <= high)
    return int(word)


def one_of(word, words):
    ought(word in words)
    return word


def limit(words):
    ought(len(words) == 5)
    read_rate, read_burst, write_rate, write_burst, tick = map(number, words)
    ought(1 <= read_rate <= read_burst <= BURST and 1 <= write_rate <= write_burst <= BURST and 1 <= tick <= TICK)
    return Limit(read_rate, read_burst, write_rate, write_burst, tick)


def side(words):
    ought(len(words) == 2)
    return number(words[0], 0, 2**32 - 1), one_of(words[1], SIDES)


def ask(words):
    """An act as a tuple of its name, its side and its values; None for `nop`."""
    name, rest = words[0], words[3:]
    if words == ["nop"]:
        return None
    if words == ["stop"]:
        return ("stop",)
    end = side(words[1:3])
    if name in ("free", "cancel", "incref", "decref", "leave"):
        values = ()
    elif name in ("enable", "disable", "trigger"):
        values = (one_of(rest[0], DIRS),)
    elif name == "marks":
        values = (one_of(rest[0], DIRS), *map(number, rest[1:3]))
    elif name == "timeouts":
        values = (number(rest[0]), number(rest[1]))
    elif name == "timer":
        values = (number(rest[0]),)
    elif name == "join":
        values = (number(rest[0], 0, 2**32 - 1),)
    else:
        ought(name == "rate")
        return (name, end, None if rest == ["none"] else limit(rest))
    ought(len(rest) == len(values))
    return (name, end, *values)


class Reader:
    """What the lines so far say."""

    def __init__(self):
        self.settings = {"hold": 524288, "groups": [], "rate": {}, "member": {}, "marks": {}, "timeouts": {}, "filter": {}}
        self.plans, self.turns, self.waits = [], [], []
        self.given, self.over = set(), set()

    def line(self, words):
        if words[0] in ("set", "on"):
            ought(not self.turns)
            self.set(words[1:]) if words[0] == "set" else self.on(words[1:])
        elif words[0] == "at":
            ought(len(words) == 2 and len(self.turns) < 20000)
            self.turns.append((number(words[1], 0, CLOCK), []))
        else:
            ought(self.turns)
            self.turns[-1][1].append(self.turn_line(words))

    def once(self, name):
        ought(name not in self.given)
        self.given.add(name)

    def set(self, words):
        name, rest = words[0], words[1:]
        if name == "hold":
            ought(len(rest) == 1)
            self.once(name)
            self.settings[name] = number(rest[0], 1, MARK)
        elif name in ("in-read", "in-write", "out-read", "out-write"):
            ought(len(rest) == 1)
            self.once(name)
            self.settings["filter"][tuple(name.split("-"))] = one_of(rest[0], FILTERS)
        elif name == "group":
            ought(len(rest) == 7 and len(self.settings["groups"]) < 64)
            ought(number(rest[0]) == len(self.settings["groups"]))
            self.settings["groups"].append((limit(rest[1:6]), number(rest[6], 1, BURST)))
        else:
            ought(name in ("rate", "member", "marks", "timeouts"))
            self.once((name, one_of(rest[0], SIDES)))
            self.settings[name][rest[0]] = self.of_side(name, rest[1:])

    def of_side(self, name, words):
        if name == "rate":
            return limit(words)
        ought(len(words) == {"member": 1, "marks": 4, "timeouts": 2}[name])
        if name == "member":
            return number(words[0], 0, len(self.settings["groups"]) - 1)
        return tuple(number(word, 0, MARK if name == "marks" else CLOCK) for word in words)

    def on(self, words):
        end = number(words[0], 0, 31), one_of(words[1], SIDES)
        self.plans.append((end, one_of(words[2], KINDS), number(words[3], 1, 1000000), ask(words[4:])))

    def turn_line(self, words):
        name = words[0]
        if name in ("open", "pollfail"):
            ought(len(words) == 1 or name == "open" and words[1:] == ["wait"])
            if name == "open":
                ought(len(self.waits) < 256)
                self.waits.append(len(words) == 2)
            return tuple(words)
        link = number(words[1], 0, len(self.waits) - 1)
        if name == "conn":
            ought(len(words) == 3 and self.waits[link])
            return name, link, one_of(words[2], ("ok", "fail")) == "ok"
        end, rest = (link, one_of(words[2], SIDES)), words[3:]
        if name == "r":
            ought(len(rest) == 1 and HEX.fullmatch(rest[0]) and end not in self.over)
            return name, end, bytes.fromhex(rest[0])
        if name == "w":
            ought(len(rest) == 1)
            return name, end, None if rest[0] == "all" else number(rest[0], 0, CLOCK)
        ought(name in ("eof", "rfail", "wfail", "spur") and not rest)
        if name in ("eof", "rfail"):
            self.over.add(end)
        return name, end


def read_script(text):
    """The script of these bytes. Bad carries the number of the first bad line."""
    reader = Reader()
    lines = text.split(b"\n")
    if not lines[-1]:
        lines.pop()
    for at, line in enumerate(lines):
        try:
            ought(all(0x20 <= byte <= 0x7E for byte in line))
            words = [word for word in line.decode("ascii").split(" ") if word]
            if words and not words[0].startswith("#"):
                reader.line(words)
        except (ValueError, IndexError):
            raise Bad(at + 1) from None
    return Script(reader.settings, reader.plans, reader.turns)
