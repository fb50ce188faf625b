"""A whole run: what `evplay relay` writes of a script, and how it ends."""
from collections import namedtuple

from relay_rules.port import FailPort, ScriptPort
from relay_rules.relay import Cut, Relay
from relay_rules.script import Bad, read_script

Ended = namedtuple("Ended", "status out err")
LONGEST = 2**24


def closing_step(settings):
    """The greatest tick length of the settings' limits, or a second."""
    limits = [*settings["rate"].values(), *(limit for limit, _ in settings["groups"])]
    return max((limit.tick for limit in limits), default=1000)


def most_closing_turns(script, relay):
    """As they begin: 4, 10 for each byte that was not read, 8 for each in a live side, 24 for each link that is open or waits."""
    brought = sum(len(line[2]) for _, lines in script.turns for line in lines if line[0] == "r")
    unread = brought - sum(it.read for it in relay.ends.values())
    buffered = sum(sum(it.lengths().values()) for _, it in relay.live())
    return 4 + 10 * unread + 8 * buffered + 24 * (len(relay.open_links()) + relay.port.waiting())


def turns(script, relay, drain):
    """Once for each turn to be made: those of the script, and closing turns where it drains."""
    yield from script.turns
    if drain:
        relay.port.step = closing_step(script.settings)
        relay.most = most_closing_turns(script, relay)
        while relay.open_links() and relay.closing < relay.most:
            relay.closing += 1
            yield


def run(script, port=None, drain=False):
    """The relay once all turns are made, and what cut the last of them off: None, a fault's words, or (link, turn) of a stop."""
    relay = Relay(script, port or ScriptPort(script.turns))
    for at, _ in enumerate(turns(script, relay, drain)):
        try:
            relay.turn()
        except Cut as cut:
            return relay, cut.args[0] if isinstance(cut.args[0], str) else (cut.args[0], at + 1)
    return relay, None


def text_of(relay):
    return "".join(line + "\n" for line in relay.trace + relay.report())


def ended(relay, cut):
    if cut is None:
        return Ended(0, text_of(relay), "")
    if cut == "poll fault":
        return Ended(5, text_of(relay), "poll fault\n")
    return Ended(6, text_of(relay), "stopped: link %d turn %d\n" % cut)


def play(text, drain=False):
    if len(text) > LONGEST:
        return Ended(7, "", "too long\n")
    try:
        script = read_script(text)
    except Bad as bad:
        return Ended(2, "", f"bad script: line {bad.args[0]}\n")
    return ended(*run(script, drain=drain))


def failing(text):
    """The run over the script's port; then for each kind of call and each k of 1 to 4 how the run ends whose k-th such call fails,
    with its trace and report where that call is made."""
    script = read_script(text)
    yield f"== no call fails\n{text_of(run(script)[0])}"
    for kind in ("poll", "accept", "connect_state", "read", "write"):
        for k in range(1, 5):
            port = FailPort(ScriptPort(script.turns), kind, k)
            relay, cut = run(script, port)
            turns = sum(line.startswith("turn ") for line in relay.trace)
            ends = f"{cut} in turn {turns}" if cut else "all turns end well"
            yield f"== {kind} {k}: " + ("there are fewer calls\n" if port.left > 0 else f"{ends}\n{text_of(relay)}")
