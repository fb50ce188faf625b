"""A built program beside the rules: what differs between what it writes of a script and what it owes."""
import subprocess


def differs(words, text, owed):
    """The first difference of a run of these words, or None."""
    ran = subprocess.run(words, input=text, capture_output=True)
    if (ran.returncode, ran.stderr.decode()) != (owed.status, owed.err):
        return f"status {ran.returncode}, {ran.stderr.decode()!r}; owed {owed.status}, {owed.err!r}"
    have, want = ran.stdout.decode().splitlines(), owed.out.splitlines()
    for at, (line, other) in enumerate(zip(have + ["the end"], want + ["the end"])):
        if line != other:
            return f"line {at + 1}: {line}; owed {other}"
    return None
