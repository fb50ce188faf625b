#!/usr/bin/env python3
"""Relays messages while the program gets no memory for what it reads, and compares every byte.

  no_memory.py PROGRAM [--rounds N]

PROGRAM is evrelay.  A link is opened, and from then on each malloc of 64 bytes is refused: that is what the program asks
for a message of 64 bytes.  N messages (2,000) go through it to an echo and back; it ends with 1 where one was lost or
changed, or where nothing was refused.  It needs cc and the C library of GNU."""
import argparse, os, signal, socket, subprocess, sys, tempfile, threading, time

SIZE = 64


def build(folder):
    source = os.path.join(os.path.dirname(os.path.abspath(__file__)), 'refuse_malloc.c')
    library = os.path.join(folder, 'refuse_malloc.so')
    subprocess.run(['cc', '-O2', '-shared', '-fPIC', source, '-o', library], check=True)
    return library


def echo(listener):
    link, _ = listener.accept()
    with link:
        while data := link.recv(1 << 16):
            link.sendall(data)


def free_port():
    with socket.socket() as s:
        s.bind(('127.0.0.1', 0))
        return s.getsockname()[1]


def dial(port):
    for _ in range(200):
        try:
            return socket.create_connection(('127.0.0.1', port), 10)
        except ConnectionRefusedError:
            time.sleep(.02)
    sys.exit('the program does not listen')


def exchange(link, message):
    link.sendall(message)
    got = b''
    while len(got) < len(message):
        more = link.recv(len(message) - len(got))
        if not more:
            sys.exit('the link ended')
        got += more
    if got != message:
        sys.exit('a message came back changed')


def main():
    words = argparse.ArgumentParser(description=__doc__, formatter_class=argparse.RawDescriptionHelpFormatter)
    words.add_argument('program')
    words.add_argument('--rounds', type=int, default=2000)
    words = words.parse_args()
    with tempfile.TemporaryDirectory() as folder, socket.create_server(('127.0.0.1', 0)) as listener:
        threading.Thread(target=echo, args=(listener,), daemon=True).start()
        port = free_port()
        surroundings = dict(os.environ, LD_PRELOAD=build(folder), REFUSE_SIZE=str(SIZE))
        program = subprocess.Popen(
            [words.program, '--listen', f'127.0.0.1:{port}', '--to', f'127.0.0.1:{listener.getsockname()[1]}', '--links', '1'],
            env=surroundings, stdout=subprocess.PIPE, stderr=subprocess.PIPE, text=True)
        with dial(port) as link:
            exchange(link, os.urandom(SIZE))
            program.send_signal(signal.SIGUSR1)
            for _ in range(words.rounds):
                exchange(link, os.urandom(SIZE))
        said = program.communicate(timeout=30)[1]
    refused = int(said.split('refused ')[-1])
    print(f'{words.rounds} messages of {SIZE} bytes came back whole; {refused} mallocs were refused; status {program.returncode}')
    if program.returncode != 0 or refused == 0:
        sys.exit(1)


main()
