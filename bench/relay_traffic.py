#!/usr/bin/env python3
"""Sends bytes through the built evrelay and compares each of them at both ends.

  bench/relay_traffic.py [--evrelay PATH] [--quick] [--seed N]

Stages, each over a relay of its own:
  traffic   some 200 links at once, random sizes and pieces, both ways, each half closed by itself
  reset     one link of many is reset in the middle; all others arrive whole
  refused   a target that refuses: the client is closed, and the relay goes on
  full      once all its links are opened it listens no more: the next client is refused at once, and the last link goes on
  address   it listens at the address that it was given and at no other, connects to that of the target, and waits without the processor
  many      1,100 links, one after the other, each to the target, with bytes of its own both ways; one that is over holds at most 1,000 bytes
  halves    1 MiB each way, the second one sent only once the first one and its end came, in both orders
  whole     messages that come in whole reads are handed on at once, and wait for no acknowledgement
  starved   with few descriptors it ends at once and says so, or it serves
  idle      links that moved 64 KiB each way and are idle hold at most 2,400 bytes each, and cost no processor
  stopped   a reader that stops for seconds: memory stays within 3.5 times the hold mark, the processor is idle, then all arrives
  slow      a reader that stops again and again: the memory in which bytes wait is used again, and not taken anew from the system
  vanished  clients that vanish while bytes come for them
  short     links beyond the descriptors: each one in the end
  hex       what one relay turns into hex, a second one behind it turns back, whatever the pieces
  lines     line ends that are turned, beside as many bytes that aren't: processor seconds a GiB

It ends with status 1 at the first byte that is lost, changed or doubled, at a report that tells other numbers than were sent, or at a
relay that doesn't end by itself with status 0. Standard library only. --quick is what the gate runs: a few seconds."""
import argparse, asyncio, os, random, re, resource, socket, struct, subprocess, sys, time

MIB = 1 << 20


def fail(text):
    print('relay_traffic: ' + text, file=sys.stderr, flush=True)
    os._exit(1)


def free_port():
    with socket.socket() as s:
        s.bind(('127.0.0.1', 0))
        return s.getsockname()[1]


def refusing_port():
    """A port at which nobody listens, below those that the system gives out by itself."""
    for port in range(1, 1024):
        with socket.socket() as s:
            if s.connect_ex(('127.0.0.1', port)):
                return port
    fail('all low ports are taken')


def two_servers(one, two):
    """Servers at two addresses and one port."""
    for _ in range(100):
        first = socket.create_server((one, 0))
        try:
            return first, socket.create_server((two, first.getsockname()[1]))
        except OSError:
            first.close()
    fail('no port is free at two addresses')


def is_listening(port):
    want = ':%04X' % port
    with open('/proc/net/tcp') as table:
        return any(w[3] == '0A' and w[1].endswith(want) for w in (line.split() for line in table))


class Relay:
    """A relay to a target's port, for so many links."""

    def __init__(self, program, target, links, words=(), descriptors=None, to='127.0.0.1'):
        self.port = free_port()
        command = [program, '--listen', f'127.0.0.1:{self.port}', '--to', f'{to}:{target}', '--links', str(links), *words]

        def limit():
            if descriptors:
                resource.setrlimit(resource.RLIMIT_NOFILE, (descriptors, descriptors))

        self.process = subprocess.Popen(command, stdout=subprocess.PIPE, stderr=subprocess.PIPE, stdin=subprocess.DEVNULL,
                                        preexec_fn=limit)
        end = time.time() + 5
        while not is_listening(self.port):
            if self.process.poll() is not None or time.time() > end:
                fail('the relay does not listen: ' + self.process.stderr.read().decode())
            time.sleep(.01)

    def resident(self):
        with open(f'/proc/{self.process.pid}/status') as status:
            return int(re.search(r'VmRSS:\s+(\d+)', status.read()).group(1)) * 1024

    def seconds(self):
        with open(f'/proc/{self.process.pid}/stat') as stat:
            fields = stat.read().rpartition(')')[2].split()
        return (int(fields[11]) + int(fields[12])) / os.sysconf('SC_CLK_TCK')

    def pages(self):
        """How many pages it got from the system."""
        with open(f'/proc/{self.process.pid}/stat') as stat:
            return int(stat.read().rpartition(')')[2].split()[7])

    def report(self):
        """The lines of the report, once the relay ended by itself."""
        try:
            out, err = self.process.communicate(timeout=20)
        except subprocess.TimeoutExpired:
            self.process.kill()
            fail('the relay did not end')
        if self.process.returncode != 0 or err:
            fail(f'the relay ended with {self.process.returncode}: {err.decode()}')
        return out.decode().splitlines()


def told(lines):
    """state -> the sorted counts (in read, in given, out read, out given) of the links in it"""
    links = {}
    for line in lines[:-1]:
        words = line.split()
        if words[0] != 'link' or words[3] != 'in' or words[6] != 'out':
            fail('a line of the report is strange: ' + line)
        links.setdefault(words[2], []).append((int(words[4]), int(words[5]), int(words[7]), int(words[8])))
    counts = re.fullmatch(r'done (\d+) open (\d+) gone (\d+)', lines[-1])
    if not counts or [int(n) for n in counts.groups()] != [len(links.get(s, ())) for s in ('done', 'open', 'gone')]:
        fail('the last line of the report is strange: ' + lines[-1])
    return {state: sorted(each) for state, each in links.items()}


async def send(writer, data, rng, pause=0.0):
    at = 0
    while at < len(data):
        piece = rng.choice((1, 7, 100, 1460, 4096, 16384, 65536))
        writer.write(data[at:at + piece])
        at += piece
        await writer.drain()
        if pause and rng.random() < .1:
            await asyncio.sleep(rng.random() * pause)
    writer.write_eof()


async def take(reader, owed, what):
    got = bytearray()
    while True:
        piece = await reader.read(65536)
        if not piece:
            break
        got += piece
        if not owed.startswith(bytes(got[-len(piece):]), len(got) - len(piece)):
            fail(f'{what}: a byte before {len(got)} differs')
    if len(got) != len(owed):
        fail(f'{what}: {len(got)} bytes came of {len(owed)}')


async def drain(reader):
    while await reader.read(65536):
        pass


class Target:
    """A target that knows by the first eight bytes of a link what it has to send and what it is owed. Of a link that is to be cut it is
    owed nothing."""

    def __init__(self):
        self.plans = {}
        self.cut = set()

    async def start(self):
        self.server = await asyncio.start_server(self.met, '127.0.0.1', 0, backlog=1024)
        self.port = self.server.sockets[0].getsockname()[1]

    async def met(self, reader, writer):
        key = None
        try:
            key = await reader.readexactly(8)
            up, down, seed = self.plans[key]
            owed = drain(reader) if key in self.cut else take(reader, up, 'up')
            await asyncio.gather(owed, send(writer, down, random.Random(seed), .01))
        except (asyncio.IncompleteReadError, ConnectionError):
            if key not in self.cut and not (key is None and self.cut):
                fail('a link of the target was cut off')
        writer.close()


def plan(target, rng, most):
    key = rng.randbytes(8)
    up, down = rng.randbytes(rng.randrange(most)), rng.randbytes(rng.randrange(most))
    target.plans[key] = (up, down, rng.random())
    return key, up, down


async def client(relay, key, up, down, rng):
    reader, writer = await asyncio.open_connection('127.0.0.1', relay.port)
    await asyncio.gather(send(writer, key + up, rng, .01), take(reader, down, 'down'))
    writer.close()
    return len(key) + len(up), len(down)


async def traffic(program, rng, links, most):
    target = Target()
    await target.start()
    relay = Relay(program, target.port, links)
    plans = [plan(target, rng, most) for _ in range(links)]
    sums = await asyncio.gather(*(client(relay, *p, random.Random(rng.random())) for p in plans))
    lines = await asyncio.to_thread(relay.report)
    owed = sorted((up, down, down, up) for up, down in sums)
    if told(lines) != {'done': owed}:
        fail('the report of the traffic tells other numbers')
    return f'{links} links, {sum(u + d for u, d in sums) / MIB:.0f} MiB'


async def reset(program, rng, links, most):
    target = Target()
    await target.start()
    relay = Relay(program, target.port, links + 1)
    key, _, _ = plan(target, rng, 4 * MIB)
    target.cut.add(key)
    cut = socket.create_connection(('127.0.0.1', relay.port))
    cut.setsockopt(socket.SOL_SOCKET, socket.SO_LINGER, struct.pack('ii', 1, 0))
    cut.sendall(key + bytes(1000))
    await asyncio.sleep(.1)
    plans = [plan(target, rng, most) for _ in range(links)]
    tasks = [asyncio.create_task(client(relay, *p, random.Random(rng.random()))) for p in plans]
    await asyncio.sleep(.02)
    cut.close()
    sums = await asyncio.gather(*tasks)
    lines = told(await asyncio.to_thread(relay.report))
    if lines.get('done') != sorted((up, down, down, up) for up, down in sums) or len(lines.get('gone', ())) != 1:
        fail('the report behind a reset tells other numbers')
    return f'{links} links beside one that was reset'


async def refused(program, rng, links):
    relay = Relay(program, refusing_port(), links)
    for _ in range(links):
        reader, writer = await asyncio.open_connection('127.0.0.1', relay.port)
        try:
            writer.write(b'hello')
            if await asyncio.wait_for(reader.read(), 5):
                fail('bytes came from a target that refuses')
        except ConnectionError:
            pass
        writer.close()
    lines = told(await asyncio.to_thread(relay.report))
    if len(lines.get('gone', ())) != links:
        fail('links to a target that refuses are not gone')
    return f'{links} clients were closed'


def is_refused(port):
    try:
        socket.create_connection(('127.0.0.1', port), 1).close()
    except ConnectionRefusedError:
        return True
    return False


async def full(program):
    """One link, which is left open; a second client before and behind its end."""
    server = socket.create_server(('127.0.0.1', 0))
    server.settimeout(5)
    relay = Relay(program, server.getsockname()[1], 1)
    with socket.create_connection(('127.0.0.1', relay.port), 5) as near:
        far, _ = await asyncio.to_thread(server.accept)
        near.settimeout(5)
        far.sendall(b'hello')
        if await asyncio.to_thread(near.recv, 5, socket.MSG_WAITALL) != b'hello':
            fail('the only link carries nothing')
        if not is_refused(relay.port):
            fail('a client is taken that is one too many')
        near.sendall(b'there')
        if await asyncio.to_thread(far.recv, 5, socket.MSG_WAITALL) != b'there':
            fail('the only link carries nothing once it listens no more')
        far.close()
    lines = told(await asyncio.to_thread(relay.report))
    if sum(len(counts) for counts in lines.values()) != 1:
        fail('the report tells of another number of links')
    return 'the second client was refused'


async def address(program, seconds):
    """All of 127.0.0.0/8 is this machine, so a relay that listens or connects elsewhere is met there."""
    owed, other = two_servers('127.0.0.3', '127.0.0.1')
    other.settimeout(0)
    relay = Relay(program, owed.getsockname()[1], 1, to='127.0.0.3')
    used = relay.seconds()
    await asyncio.sleep(seconds)
    used = relay.seconds() - used
    if used > .05 * seconds:
        fail(f'a relay that nobody calls costs {used:.2f} s in {seconds} s')
    try:
        socket.create_connection(('127.0.0.2', relay.port), 1).close()
        fail('the relay listens at another address')
    except ConnectionRefusedError:
        pass
    reader, writer = await asyncio.open_connection('127.0.0.1', relay.port)
    owed.settimeout(5)
    try:
        peer, _ = await asyncio.to_thread(owed.accept)
    except TimeoutError:
        fail('the relay does not connect to the address that it was given')
    try:
        other.accept()
        fail('the relay connects to another address')
    except BlockingIOError:
        pass
    peer.sendall(b'here')
    peer.close()
    if await reader.read() != b'here':
        fail('the bytes of the target did not come')
    writer.close()
    await asyncio.to_thread(relay.report)
    return f'{used:.2f} s of {seconds} s'


async def many(program, rng, links):
    target = Target()
    await target.start()
    relay = Relay(program, target.port, links)
    sums, resident, first = [], {}, links // 11
    for _ in range(links):
        resident[len(sums)] = relay.resident()  # (the relay ends with its last link)
        sums.append(await client(relay, *plan(target, rng, 2000), random.Random(rng.random())))
    held = (resident[links - 1] - resident[first]) // (links - 1 - first)
    if held > 1000:
        fail(f'a link that is over holds {held} bytes')
    lines = told(await asyncio.to_thread(relay.report))
    if lines != {'done': sorted((up, down, down, up) for up, down in sums)}:
        fail('the report of many links tells other numbers')
    return f'{links} links, {held} bytes each once it is over'


async def halves(program, rng, size):
    """Each half is closed by itself, and the other one goes on behind that."""
    for client_first in (True, False):
        server = socket.create_server(('127.0.0.1', 0))
        relay = Relay(program, server.getsockname()[1], 1)
        near = await asyncio.open_connection('127.0.0.1', relay.port)
        peer, _ = await asyncio.to_thread(server.accept)
        far = await asyncio.open_connection(sock=peer)
        ends = (near, far) if client_first else (far, near)
        for (_, writer), (reader, _) in (ends, ends[::-1]):
            data = rng.randbytes(size)
            await asyncio.gather(send(writer, data, rng), take(reader, data, 'a half'))
        for _, writer in ends:
            writer.close()
        if await asyncio.to_thread(relay.report) != [f'link 0 done in {size} {size} out {size} {size}', 'done 1 open 0 gone 0']:
            fail('the report of two halves tells other numbers')
    return f'{size / MIB:.0f} MiB each way, twice'


async def whole(program, rng, size, trips):
    """A message that the system keeps back for more to follow shows as 40 ms each way."""
    async def answer(reader, writer):
        try:
            while True:
                writer.write(await reader.readexactly(size))
        except asyncio.IncompleteReadError:
            writer.close()

    server = await asyncio.start_server(answer, '127.0.0.1', 0)
    relay = Relay(program, server.sockets[0].getsockname()[1], 1)
    reader, writer = await asyncio.open_connection('127.0.0.1', relay.port)
    data, took = rng.randbytes(size), []
    for _ in range(trips):
        began = time.time()
        writer.write(data)
        if await reader.readexactly(size) != data:
            fail('a message comes back with other bytes')
        took.append(time.time() - began)
    middle = sorted(took)[trips // 2]
    if middle > .03:
        fail(f'a message of {size} bytes takes {1000 * middle:.0f} ms there and back')
    writer.close()
    await asyncio.to_thread(relay.report)
    return f'{trips} messages of {size} bytes, {1000 * middle:.2f} ms there and back'


async def starved(program):
    """With each number of descriptors: an open fault, with its line, or a link that is served. The least that serves is told."""
    least = None
    for descriptors in range(4, 13):
        server = socket.create_server(('127.0.0.1', 0))
        port = free_port()
        command = [program, '--listen', f'127.0.0.1:{port}', '--to', f'127.0.0.1:{server.getsockname()[1]}', '--links', '1']
        limit = (descriptors, descriptors)
        process = subprocess.Popen(command, stdout=subprocess.PIPE, stderr=subprocess.PIPE, stdin=subprocess.DEVNULL,
                                   preexec_fn=lambda: resource.setrlimit(resource.RLIMIT_NOFILE, limit))
        end = time.time() + 5
        while process.poll() is None and not is_listening(port) and time.time() < end:
            await asyncio.sleep(.01)
        await asyncio.sleep(.1)
        if process.poll() is None:
            least = least or descriptors
            near = socket.create_connection(('127.0.0.1', port))
            near.sendall(b'hello')
            server.settimeout(5)
            try:
                far, _ = await asyncio.to_thread(server.accept)
            except TimeoutError:
                fail(f'with {descriptors} descriptors it starts and serves nobody')
            if await asyncio.to_thread(far.recv, 5, socket.MSG_WAITALL) != b'hello':
                fail(f'with {descriptors} descriptors bytes are lost')
            far.close()
            near.close()
            process.communicate(timeout=20)
        elif least:
            fail(f'it serves with {least} descriptors and not with {descriptors}')
        else:
            out, err = process.communicate()
            if process.returncode != 9 or err != b'open fault\n' or out != b'done 0 open 0 gone 0\n':
                fail(f'with {descriptors} descriptors it ends with {process.returncode}: {err.decode()}')
    if not least:
        fail('it serves with no number of descriptors')
    return f'{least} descriptors serve, fewer are told'


async def idle(program, rng, links, size, seconds):
    """Room that is kept twice over, or isn't given up, shows in what idle links hold."""
    server = await asyncio.start_server(echo, '127.0.0.1', 0, backlog=1024)
    relay = Relay(program, server.sockets[0].getsockname()[1], links + 1)
    data = rng.randbytes(size)
    both = [await moved(relay, data)]  # the first link brings what all share
    before = relay.resident()
    for _ in range(links):
        both.append(await moved(relay, data))
    held = (relay.resident() - before) // links
    used = relay.seconds()
    await asyncio.sleep(seconds)
    used = relay.seconds() - used
    if held > 2400:
        fail(f'an idle link holds {held} bytes')
    if used > .05 * seconds:
        fail(f'{links} idle links cost {used:.2f} s in {seconds} s')
    for _, writer in both:
        writer.close()
    if told(await asyncio.to_thread(relay.report)) != {'done': [(size,) * 4] * (links + 1)}:
        fail('the report of idle links tells other numbers')
    return f'{held} bytes a link, {used:.2f} s of {seconds} s'


async def echo(reader, writer):
    while data := await reader.read(65536):
        writer.write(data)
        await writer.drain()
    writer.close()


async def moved(relay, data):
    """A link that stays open, once these bytes went through it and came back."""
    reader, writer = await asyncio.open_connection('127.0.0.1', relay.port)
    writer.write(data)
    if await reader.readexactly(len(data)) != data:
        fail('an echo brings other bytes')
    return reader, writer


async def stopped(program, rng, size, seconds, words):
    server = socket.create_server(('127.0.0.1', 0))
    server.setsockopt(socket.SOL_SOCKET, socket.SO_RCVBUF, 65536)
    relay = Relay(program, server.getsockname()[1], 1, words)
    before = relay.resident()
    data = rng.randbytes(size)
    reader, writer = await asyncio.open_connection('127.0.0.1', relay.port)
    peer, _ = await asyncio.to_thread(server.accept)
    sending = asyncio.create_task(send(writer, data, rng))
    await asyncio.sleep(.5)
    used = relay.seconds()
    await asyncio.sleep(seconds)
    used = relay.seconds() - used
    grown = relay.resident() - before
    if grown > 1.75 * MIB: # a block that grew to 2.25 times what was used, and the one that it came from
        fail(f'a reader that stopped costs {grown / MIB:.1f} MiB')
    if used > .05 * seconds:
        fail(f'a reader that stopped costs {used:.2f} s in {seconds} s')
    peer.setblocking(False)
    far_reader, far_writer = await asyncio.open_connection(sock=peer)
    await asyncio.gather(sending, take(far_reader, data, 'behind a stop'))
    far_writer.close()
    if await reader.read():
        fail('bytes came from a target that sent none')
    writer.close()
    await asyncio.to_thread(relay.report)
    return f'{grown / MIB:.2f} MiB, {used:.2f} s of {seconds} s'


async def slow(program, rng, times):
    server = socket.create_server(('127.0.0.1', 0))
    relay = Relay(program, server.getsockname()[1], 1)
    data = rng.randbytes(4 * MIB) * times
    reader, writer = await asyncio.open_connection('127.0.0.1', relay.port)
    peer, _ = await asyncio.to_thread(server.accept)
    sending = asyncio.create_task(send(writer, data, rng))
    far_reader, far_writer = await asyncio.open_connection(sock=peer)
    for _ in range(times):
        await asyncio.sleep(.05)
        if await far_reader.readexactly(4 * MIB) != data[:4 * MIB]:
            fail('behind a pause other bytes come')
    await sending
    pages = relay.pages()
    if pages > 450 * times:
        fail(f'{times} pauses of a reader cost {pages} pages')
    far_writer.close()
    writer.close()
    await asyncio.to_thread(relay.report)
    return f'{pages} pages for {times} pauses'


async def vanished(program, rng, links):
    target = Target()
    await target.start()
    relay = Relay(program, target.port, links)
    for _ in range(links):
        key = rng.randbytes(8)
        target.plans[key] = (b'', bytes(4 * MIB), 1)
        target.cut.add(key)
        gone = socket.create_connection(('127.0.0.1', relay.port))
        gone.sendall(key)
        await asyncio.sleep(.01)
        gone.setsockopt(socket.SOL_SOCKET, socket.SO_LINGER, struct.pack('ii', 1, 0))
        gone.close()
    lines = told(await asyncio.to_thread(relay.report))
    if len(lines.get('gone', ())) != links:
        fail('links of clients that vanished are not gone')
    return f'{links} clients'


async def short(program, rng, links, descriptors, most):
    target = Target()
    await target.start()
    relay = Relay(program, target.port, links, descriptors=descriptors)
    plans = [plan(target, rng, most) for _ in range(links)]
    sums = await asyncio.gather(*(client(relay, *p, random.Random(rng.random())) for p in plans))
    lines = told(await asyncio.to_thread(relay.report))
    if lines != {'done': sorted((up, down, down, up) for up, down in sums)}:
        fail('the report with few descriptors tells other numbers')
    return f'{links} links with {descriptors} descriptors'


async def hex_and_back(program, rng, size):
    """Two relays in a row: hex digits between them, both ways."""
    target = Target()
    await target.start()
    second = Relay(program, target.port, 1, ('--in-read', 'hex-in', '--out-read=hex-out'))
    first = Relay(program, second.port, 1, ('--in-read=hex-out', '--out-read', 'hex-in'))
    key, up, down = rng.randbytes(8), rng.randbytes(size), rng.randbytes(size)
    target.plans[key] = (up, down, rng.random())
    await client(first, key, up, down, rng)
    whole = size + len(key)
    for relay, owed in ((first, (whole, size, 2 * size, 2 * whole)), (second, (2 * whole, 2 * size, size, whole))):
        if told(await asyncio.to_thread(relay.report)) != {'done': [owed]}:
            fail('a report of hex digits tells other numbers')
    return f'{2 * size / MIB:.0f} MiB'


async def lines(program, rng, size):
    """Bytes of which each 40th is an LF, as they are and with CRs put in: both come whole."""
    data = b'0123456789abcdefghijklmnopqrstuvwxyz... \n' * (size // 41)
    costs = []
    for words, owed in (((), data), (('--in-read', 'to-crlf'), data.replace(b'\n', b'\r\n'))):
        server = socket.create_server(('127.0.0.1', 0))
        relay = Relay(program, server.getsockname()[1], 1, words)
        reader, writer = await asyncio.open_connection('127.0.0.1', relay.port)
        peer, _ = await asyncio.to_thread(server.accept)
        far_reader, far_writer = await asyncio.open_connection(sock=peer)
        await asyncio.gather(send(writer, data, random.Random(1)), take(far_reader, owed, 'lines'))
        costs.append(relay.seconds() * (1 << 30) / len(data))
        far_writer.close()
        writer.close()
        await asyncio.to_thread(relay.report)
    return f'{costs[0]:.2f} s a GiB as they are, {costs[1]:.2f} s with to-crlf'


async def main():
    parser = argparse.ArgumentParser()
    parser.add_argument('--evrelay', default='crates/evrelay/out/evrelay')
    parser.add_argument('--quick', action='store_true')
    parser.add_argument('--seed', type=int, default=1)
    args = parser.parse_args()
    program, rng, quick = os.path.abspath(args.evrelay), random.Random(args.seed), args.quick
    stages = [
        ('traffic', traffic(program, rng, 40 if quick else 200, 200_000 if quick else 2_000_000)),
        ('reset', reset(program, rng, 10 if quick else 60, 100_000 if quick else 1_000_000)),
        ('refused', refused(program, rng, 5)),
        ('full', full(program)),
        ('address', address(program, 1)),
        ('many', many(program, rng, 1100)),
        ('halves', halves(program, rng, MIB)),
        ('whole', whole(program, rng, 32_768, 30)),
        ('starved', starved(program)),
        ('idle', idle(program, rng, 450, 65536, 1)),
        ('stopped', stopped(program, rng, (8 if quick else 64) * MIB, 1 if quick else 5, ())),
        ('slow', slow(program, rng, 30 if quick else 200)),
        ('vanished', vanished(program, rng, 5 if quick else 40)),
        ('short', short(program, rng, 20 if quick else 60, 24 if quick else 60, 20_000)),
        ('hex', hex_and_back(program, rng, (MIB if quick else 32 * MIB))),
        ('lines', lines(program, rng, (4 if quick else 128) * MIB)),
    ]
    for name, stage in stages:
        began = time.time()
        try:
            came = await asyncio.wait_for(stage, 300)
        except asyncio.TimeoutError:
            fail(f'{name} does not end')
        print(f'{name}: {came} ({time.time() - began:.1f} s)', flush=True)


asyncio.run(main())
