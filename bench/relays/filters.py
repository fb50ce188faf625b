#!/usr/bin/env python3
"""Prints what filters cost evrelay: processor seconds a GiB that is sent, and how many times those of a link without filters.

  filters.py PROGRAM [--mib N] [--reps N] [--kinds none,to-crlf..]

PROGRAM is evrelay.  One link carries N MiB (256) of lines of text one way, and every byte that arrives is compared.  The kinds
of filters, of which none is one, are taken in turn, and the middle of the repetitions is shown."""
import argparse, os, random, socket, statistics, subprocess, sys, threading, time

WORDS = 'the relay passes each byte of a line and an end of it as it stands in the text of a page'.split()
KINDS = {
    'none': [],
    'to-crlf': ['--out-write', 'to-crlf'],
    'to-lf': ['--out-write', 'to-lf'],
    'hex both ways': ['--in-read', 'hex-out', '--out-write', 'hex-in'],
}


def lines():
    rnd, text = random.Random(1), b''
    while len(text) < 1 << 20:
        text += (' '.join(rnd.choice(WORDS) for _ in range(rnd.randint(4, 18))) + '\n').encode()
    return text


def free_port():
    with socket.socket() as s:
        s.bind(('127.0.0.1', 0))
        return s.getsockname()[1]


def dial(port):
    for _ in range(200):
        try:
            return socket.create_connection(('127.0.0.1', port), 10)
        except ConnectionRefusedError:
            time.sleep(.02)
    sys.exit('the program does not listen')


def receive(end, owed):
    """reads to the end, compares with `owed` over and over, and answers how many bytes came"""
    room, twice, at, got = memoryview(bytearray(len(owed))), memoryview(owed + owed), 0, 0
    while count := end.recv_into(room):
        if room[:count] != twice[at:at + count]:
            sys.exit('wrong bytes')
        at, got = (at + count) % len(owed), got + count
    return got


def cost(program, words, sent, owed, times):
    """processor seconds a GiB that is sent"""
    with socket.socket() as listener:
        listener.bind(('127.0.0.1', 0))
        listener.listen()
        port = free_port()
        relay = subprocess.Popen([program, '--listen', f'127.0.0.1:{port}', '--to', f'127.0.0.1:{listener.getsockname()[1]}',
                                  '--links', '1'] + words, stdout=subprocess.DEVNULL)
        near = dial(port)
        far = listener.accept()[0]

    def send():
        for _ in range(times):
            near.sendall(sent)
        near.shutdown(socket.SHUT_WR)
    sender = threading.Thread(target=send)
    sender.start()
    got = receive(far, owed)
    sender.join()
    far.close()
    near.close()
    used = os.wait4(relay.pid, 0)[2]
    if got != times * len(owed):
        sys.exit(f'{got} bytes in place of {times * len(owed)}')
    return (used.ru_utime + used.ru_stime) / (times * len(sent) / (1 << 30))


def main():
    words = argparse.ArgumentParser()
    words.add_argument('program')
    words.add_argument('--mib', type=int, default=256)
    words.add_argument('--reps', type=int, default=3)
    words.add_argument('--kinds', default=','.join(KINDS))
    args = words.parse_args()
    kinds = args.kinds.split(',')
    text = lines()
    ended = text.replace(b'\n', b'\r\n')
    bytes_of = {'to-crlf': (text, ended), 'to-lf': (ended, text)}
    costs = {kind: [] for kind in kinds}
    for _ in range(args.reps):
        for kind in kinds:
            costs[kind].append(cost(args.program, KINDS[kind], *bytes_of.get(kind, (text, text)), args.mib))
    for kind, found in costs.items():
        times = [a / b for a, b in zip(found, costs['none'])]
        print(f'{kind:14} {statistics.median(found):6.2f} s a GiB, {statistics.median(times):5.2f} times ({min(times):.2f} to {max(times):.2f})')


main()
