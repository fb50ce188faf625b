"""The large run: what `evplay big N` plays and writes, for N of 1 to 64."""
from relay_rules.play import Ended, run
from relay_rules.script import read_script

BYTES, LAST = 3000, 11000


def random_bytes(x):
    """Bytes without end, by a rule of whole numbers."""
    while True:
        x = (x * 1103515245 + 12345) % 2**31
        yield x // 65536 % 256


def script(links):
    """Each link brings its bytes in at In, and both its ends end."""
    source = random_bytes(links)
    lines = ["set hold 4096", "set out-write to-crlf", "set rate in 500 1000 500 1000 1000", "at 0", *["open"] * links, "at 1000"]
    for link in range(links):
        lines.append(f"r {link} in {bytes(next(source) for _ in range(BYTES)).hex()}")
        lines += [f"eof {link} {end}" for end in ("in", "out")]
        lines += [f"w {link} {end} all" for end in ("in", "out")]
    lines += [f"at {moment}" for moment in range(2000, LAST + 1, 1000)]
    return "\n".join(lines) + "\n"


def big(links):
    relay, _ = run(read_script(script(links).encode()), drain=True)
    steps = [line.split() for line in relay.trace]
    got = b"".join(bytes.fromhex(step[5]) for step in steps if step[0] == "read" and step[4] == "got")
    took = b"".join(bytes.fromhex(step[5]) for step in steps if step[0] == "write" and step[4] == "took")
    total = 0
    for byte in took:
        total = (total * 31 + byte) % 2**32
    begun = sum(step[0] == "turn" for step in steps)
    lines = [f"links {links}", f"turns {begun}", f"read {len(got)}", f"written {len(took)}", f"sum {total}", relay.report()[-1]]
    return Ended(0, "".join(line + "\n" for line in lines), "")
