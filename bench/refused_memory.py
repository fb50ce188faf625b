#!/usr/bin/env python3
"""Plays scripts again and again, so that the program's Nth allocation is refused, N from 1 on, until it isn't asked for so many.

    bench/refused_memory.py [--from N] [--most COUNT] [--script NAME] [--try] [PROGRAM]
    bench/refused_memory.py [--from N] [--most COUNT] --relay PROGRAM

Each run has to end as it does with all memory, or with status 8, `out of memory` and a beginning of the same text: then each byte that
it tells as given was given. N and status are printed; it ends with 1 where a run ends otherwise. It needs cc and the C library of GNU.

With --relay it is evrelay, over one link of which each end says some bytes and ends. Each end has to hear a beginning of what the other
one said, with status 0 all of it; and no less than the report says was given to it.

With --try it needs no built program: `rt try --fail-alloc N` builds it anew for each N, unproved, which takes a minute."""
import argparse
import os
import pathlib
import re
import socket
import subprocess
import sys
import tempfile
import threading
import time

HERE = pathlib.Path(__file__).resolve().parent
HOOKS = "".join(f"on {line}\n" for line in ("0 in read 1 free 0 in", "0 in read 1 free 2 in", "1 in read 1 nop", "2 in read 1 nop"))
WAITS = [f"r {link} in {'61' * 100}\n" for link in range(3)]
SCRIPTS = {
    "a link from open to end": "at 0\nopen\nat 1\nr 0 in 6869\neof 0 in\nw 0 out all\nat 2\n",
    "a hook frees a side due behind it": HOOKS + "at 0\nopen\nopen\nopen\nat 1\nr 0 in 61\nr 1 in 62\nr 2 in 63\n",
    "a write fails": "at 0\nopen\nat 1\nr 0 in 3031323334353637\nat 2\nw 0 out 3\nwfail 0 out\nat 3\n",
    "a side with a limit": f"set rate in 10 25 10 25 1000\nat 0\nopen\nat 0\n{WAITS[0]}w 0 out all\nat 500\nat 1000\nat 5000\n",
    "links that share a limit": "set group 0 100 100 100 100 1000 64\nset member in 0\n"
    f"at 0\nopen\nopen\nopen\nat 0\n{''.join(WAITS)}at 1000\nat 2000\n",
}


class Built:
    """A built program, into which refuse_nth.c is preloaded."""

    def __init__(self, program, folder):
        self.program, self.library = program, f"{folder}/refuse_nth.so"
        subprocess.run(["cc", "-O2", "-shared", "-fPIC", str(HERE / "refuse_nth.c"), "-o", self.library], check=True)

    def run(self, text, nth):
        """Its status, text and complaint, and whether it was asked for so many allocations."""
        env = {**os.environ, "LD_PRELOAD": self.library, "REFUSE_NTH": str(nth)}
        ran = subprocess.run([self.program, "relay"], input=text, capture_output=True, env=env)
        complaint, _, asked = ran.stderr.decode().rpartition("asked ")
        return ran.returncode, ran.stdout, complaint, nth <= int(asked)


class Relayed:
    """One link over evrelay, into which refuse_nth.c is preloaded."""

    SAID = [b"client " * 150, b"target " * 90]

    def __init__(self, program, folder):
        self.built = Built(program, folder)

    def run(self, nth):
        """Its status, report and complaint, whether it was asked for so many allocations, and what target and client heard."""
        with socket.socket() as free:
            free.bind(("127.0.0.1", 0))
            port = free.getsockname()[1]
        heard = [b"", b""]
        with socket.create_server(("127.0.0.1", 0)) as target:
            target.settimeout(5)
            words = [f"127.0.0.1:{port}", "--to", f"127.0.0.1:{target.getsockname()[1]}", "--links", "1"]
            env = {**os.environ, "LD_PRELOAD": self.built.library, "REFUSE_NTH": str(nth)}
            relay = subprocess.Popen([self.built.program, "--listen", *words], stdout=subprocess.PIPE, stderr=subprocess.PIPE, env=env)
            ends = [threading.Thread(target=self.talk, args=(self.dial(port, relay), 0, heard))]
            ends.append(threading.Thread(target=self.answer, args=(target, relay, heard)))
            for end in ends:
                end.start()
            out, err = relay.communicate(timeout=20)
            for end in ends:
                end.join()
        complaint, _, asked = err.decode().rpartition("asked ")
        return relay.returncode, out.decode(), complaint, nth <= int(asked), heard

    def dial(self, port, relay):
        """A connection to the relay; none where it ended before it listened."""
        while relay.poll() is None:
            try:
                return socket.create_connection(("127.0.0.1", port), 5)
            except ConnectionError:
                time.sleep(0.001)
        return None

    def answer(self, target, relay, heard):
        """The target's end of the link, unless the relay ends without one."""
        target.settimeout(0.01)
        while True:
            try:
                return self.talk(target.accept()[0], 1, heard)
            except TimeoutError:
                if relay.poll() is not None:
                    return None

    def talk(self, end, which, heard):
        """Says what this end has to say and ends that, and hears the other one."""
        if end is None:
            return
        with end:
            end.settimeout(5)
            try:
                end.sendall(self.SAID[which])
                end.shutdown(socket.SHUT_WR)
                while some := end.recv(65536):
                    heard[1 - which] += some
            except OSError:
                pass  # it was reset

    def is_as_owed(self, status, report, complaint, heard):
        """Whether all was heard that a run owes that ended so. heard is that of what client and target said."""
        given = re.search(r"^link 0 \w+ in (\d+) (\d+) out (\d+) (\d+)$", report, re.M)
        told = [int(given[4]), int(given[2])] if given else [0, 0]
        begins = all(said.startswith(some) and least <= len(some) for said, some, least in zip(self.SAID, heard, told))
        return begins and (status == 8 and "out of memory" in complaint or (status, heard) == (0, self.SAID))

    def play(self, numbers):
        """Whether all runs of the link end as they should."""
        ends, good = {0: [], 8: []}, True
        for nth in numbers:
            status, report, complaint, asked, heard = self.run(nth)
            if not asked:
                break
            if not self.is_as_owed(status, report, complaint, heard):
                print(f"allocation {nth} refused: NOT AS OWED, status {status}, heard {[len(some) for some in heard]}, {report} {complaint}")
                good = False
            ends.setdefault(status, []).append(nth)
        print(f"a link over sockets: {sum(map(len, ends.values()))} allocations refused, one a run")
        for status, which in ends.items():
            print(f"  status {status}, {'all was heard' if status == 0 else 'a beginning was'}: {spans(which)}")
        return good


class Tried:
    """The sources, built for each run."""

    def run(self, text, nth):
        refuse = ["--fail-alloc", str(nth)] if nth else []
        ran = subprocess.run(["rt", "try", *refuse, "--", "relay"], input=text, capture_output=True, cwd=HERE.parent / "crates/evplay")
        said = ran.stderr.decode()
        status = said.partition("checked: ended status=")[2].split()
        return int(status[0]) if status else None, ran.stdout, said, True


def spans(numbers):
    """Numbers as text, runs of them as first-last."""
    parts = []
    for number in numbers:
        if parts and parts[-1][1] == number - 1:
            parts[-1][1] = number
        else:
            parts.append([number, number])
    return ", ".join(str(first) if first == last else f"{first}-{last}" for first, last in parts)


def play(program, name, text, numbers):
    """Whether all runs of this script end as they should."""
    status, whole, complaint, _ = program.run(text, 0)
    if status != 0:
        print(f"{name}: not played, status {status}: {complaint.strip()}")
        return True
    ends, good = {0: [], 8: []}, True
    for nth in numbers:
        status, out, complaint, asked = program.run(text, nth)
        if not asked:
            break
        short = status == 8 and "out of memory" in complaint and whole.startswith(out)
        if not short and (status, out) != (0, whole):
            print(f"{name}, allocation {nth} refused: NOT AS OWED, status {status}, {len(out)} bytes of {len(whole)}, {complaint.strip()}")
            good = False
        ends.setdefault(status, []).append(nth)
    print(f"{name}: {sum(map(len, ends.values()))} allocations refused, one a run")
    for status, which in ends.items():
        print(f"  status {status}, {'the whole text' if status == 0 else 'a beginning of it'}: {spans(which)}")
    return good


def main():
    words = argparse.ArgumentParser()
    words.add_argument("--most", type=int, default=10000)
    words.add_argument("--from", type=int, default=1, dest="start")
    words.add_argument("--script", choices=SCRIPTS)
    words.add_argument("--try", action="store_true", dest="tried")
    words.add_argument("--relay")
    words.add_argument("program", nargs="?", default="crates/evplay/out/evplay")
    words = words.parse_args()
    numbers = range(words.start, words.start + words.most)
    with tempfile.TemporaryDirectory() as folder:
        if words.relay:
            return 0 if Relayed(words.relay, folder).play(numbers) else 1
        program = Tried() if words.tried else Built(words.program, folder)
        names = [words.script] if words.script else SCRIPTS
        return 0 if all([play(program, name, SCRIPTS[name].encode(), numbers) for name in names]) else 1


sys.exit(main())
