#!/usr/bin/env python3
"""Prints what links hold in resident memory that have moved bytes each way and are idle.

  idle_links.py PROGRAM [--links N] [--bytes B]

PROGRAM is evrelay.  Each of N links (1,000) sends B bytes (65,536) through it to an echo, one link after the other, and
reads them back; every byte is compared.  Then all stay open, and the resident memory of the program is taken, less
that of the same program before the first link.  It tests nothing but the bytes: read the figures."""
import argparse, random, selectors, socket, subprocess, sys, threading, time


def resident(pid):
    with open(f'/proc/{pid}/status') as f:
        for line in f:
            if line.startswith('VmRSS'):
                return int(line.split()[1]) * 1024
    return 0


def echo(listener):
    """gives each connection what it sent, until all are closed"""
    ready = selectors.DefaultSelector()
    ready.register(listener, selectors.EVENT_READ)
    while True:
        for key, _ in ready.select():
            if key.fileobj is listener:
                ready.register(listener.accept()[0], selectors.EVENT_READ)
                continue
            data = key.fileobj.recv(1 << 16)
            if data:
                key.fileobj.sendall(data)
            else:
                ready.unregister(key.fileobj)
                key.fileobj.close()


def free_port():
    with socket.socket() as s:
        s.bind(('127.0.0.1', 0))
        return s.getsockname()[1]


def dial(port):
    for _ in range(200):
        try:
            return socket.create_connection(('127.0.0.1', port), 10)
        except ConnectionRefusedError:
            time.sleep(.02)
    sys.exit('the program does not listen')


def move(link, data):
    link.sendall(data)
    got = bytearray()
    while len(got) < len(data):
        more = link.recv(1 << 16)
        if not more:
            sys.exit('a link ended')
        got += more
    if got != data:
        sys.exit('other bytes came back')


def main():
    args = argparse.ArgumentParser()
    args.add_argument('program')
    args.add_argument('--links', type=int, default=1000)
    args.add_argument('--bytes', type=int, default=65536)
    args = args.parse_args()
    listener = socket.create_server(('127.0.0.1', 0), backlog=128)
    threading.Thread(target=echo, args=(listener,), daemon=True).start()
    port = free_port()
    words = ['--listen', f'127.0.0.1:{port}', '--to', f'127.0.0.1:{listener.getsockname()[1]}', '--links', str(args.links + 1)]
    relay = subprocess.Popen([args.program, *words], stdout=subprocess.DEVNULL)
    try:
        dial(port).close()  # the program is there, and has run a link
        time.sleep(.3)
        before = resident(relay.pid)
        data = random.Random(7).randbytes(args.bytes)
        links = []
        for _ in range(args.links):
            links.append(dial(port))
            move(links[-1], data)
        time.sleep(.5)
        held = resident(relay.pid) - before
        print(f'{args.links} links that moved {args.bytes} bytes each way: {held} bytes, {held // args.links} a link ({before} before)')
        for link in links:
            link.close()
        relay.wait(20)
    finally:
        relay.kill()


main()
