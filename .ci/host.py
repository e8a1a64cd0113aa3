#!/usr/bin/env python3
"""A host to try: a free port, the program that serves there, the wait until it listens, its rounds and their keys, what it replies, and its journal.

Scripts in Python import this. A script of the shell calls it:

.ci/host.py port                        writes a port that nobody listens at
.ci/host.py wait PORT PID               waits until somebody listens at PORT, and fails if this process ends first
.ci/host.py key SECRET ROUND MEMBER     writes the key of a member of a round, or of its organiser, 0
"""
import hashlib
import http.client
import json
import os
import random
import re
import socket
import subprocess
import sys
import time

# Below the ports that the system gives to outgoing connections, so that none of these has the port before the host does.
PORTS = range(20000, 32000)
# How long a busy machine may take until a host listens, in seconds.
PATIENCE = 60
# How often a host is started where another program takes its port first.
TRIES = 8


class Silent(OSError):
    """Nobody listens, where somebody should."""


class Refused(Exception):
    """A host refuses what it should accept."""


def free_port(count=1):
    """A port of this machine that nobody listens at; the first of so many, one behind the other."""
    draw = random.SystemRandom()
    while True:
        first = draw.choice(PORTS)
        try:
            for port in range(first, first + count):
                with socket.socket() as free:
                    free.bind(('127.0.0.1', port))
            return first
        except OSError:
            continue


def listens(port):
    """Whether somebody listens at a port of this machine. This looks, and doesn't connect, since a host counts its connections."""
    for name in ('/proc/net/tcp', '/proc/net/tcp6'):
        if os.path.exists(name):
            with open(name, encoding='ascii') as table:
                if re.search(rf':{port:04X} 0+:0000 0A ', table.read()):
                    return True
    return False


def wait_for(port, is_gone=lambda: False):
    """Waits until somebody listens at a port. Raises Silent if nobody does in time, or if whoever should is gone."""
    end = time.monotonic() + PATIENCE
    while time.monotonic() < end and not is_gone():
        if listens(port):
            return
        time.sleep(0.01)
    raise Silent(f'nobody listens at {port}')


def key_of(secret, number, member):
    """The key of a member of a round, or of its organiser, 0: a digest of the host's secret, as bytes, and the two numbers."""
    return hashlib.sha256(secret + f'{number}/{member}'.encode()).hexdigest()


# The deadline of rounds that stay open, and as seconds since 1970.
DEADLINE, DEADLINE_SECOND = '2126-03-01T12:00:00Z', 4928040000
# What is divided in a round of each kind, for two.
FACTS = {
    'rent': {'kind': 'rent', 'title': 'Flat', 'members': ['Ann', 'Ben'], 'rooms': ['Attic', 'Back'], 'rent': 1000},
    'goods': {'kind': 'goods', 'title': 'Attic', 'members': ['Ann', 'Ben'], 'goods': ['Clock', 'Lamp']},
    'fares': {'kind': 'fares', 'title': 'Taxi', 'members': ['Ann', 'Ben'], 'places': ['Station', 'Harbour'], 'flag': 300,
              'legs': [[1000, 1500], [0, 700], [900, 0]]},
}
# How many bytes of a journal come before its first gate.
JOURNAL_FRONT = 49


def creation(kind, tag, deadline=DEADLINE, **facts):
    """The body of a creation: a round for two of this kind, but for the facts that are said."""
    return of_case(FACTS[kind], tag, deadline=deadline, **facts)


def of_case(case, tag, deadline=DEADLINE, **facts):
    """The body of a creation: a round for what a case divides, but for the facts that are said."""
    return dict({name: fact for name, fact in case.items() if name != 'bids'}, deadline=deadline, tag=tag, **facts)


def bid_of(values, turn=1):
    """The body of a bid: values, or the place of a rider."""
    return {'turn': turn, 'place': values} if isinstance(values, int) else {'turn': turn, 'values': values}


def body_of(body):
    """A body as bytes: JSON, unless it is text or bytes already, or there is none."""
    if isinstance(body, (bytes, type(None))):
        return body
    return (body if isinstance(body, str) else json.dumps(body)).encode()


def request(method, path, body=None, key=None, closes=False, host='a'):
    """A request, as it is sent."""
    text = body_of(body)
    lines = [f'{method} {path} HTTP/1.1', f'Host: {host}', *(['Connection: close'] if closes else []), *([f'x-key: {key}'] if key else []),
             *([] if text is None else [f'Content-Length: {len(text)}'])]
    return '\r\n'.join([*lines, '', '']).encode() + (text or b'')


def talked(port, sent, piece=None, is_all=False, timeout=60):
    """Everything that comes back on a connection on which this is sent, at once or in pieces of so many bytes; and if it is all, the end of sending too."""
    got = b''
    with socket.create_connection(('127.0.0.1', port), timeout) as link:
        link.setsockopt(socket.IPPROTO_TCP, socket.TCP_NODELAY, 1)
        try:
            for at in range(0, len(sent), piece or len(sent) or 1):
                link.sendall(sent[at:at + (piece or len(sent))])
            if is_all:
                link.shutdown(socket.SHUT_WR)
            while more := link.recv(65536):
                got += more
        except OSError:
            pass
    return got


def asked(port, method, path, body=None, key=None, timeout=60, headers=(), source='127.0.0.1'):
    """Status, headers and text of a reply, on a connection of its own. A body that isn't text or bytes goes as JSON."""
    link = http.client.HTTPConnection('127.0.0.1', port, timeout=timeout, source_address=(source, 0))
    try:
        link.request(method, path, body_of(body), dict({'x-key': key} if key else {}, **dict(headers)))
        reply = link.getresponse()
        return reply.status, {name.lower(): value for name, value in reply.getheaders()}, reply.read()
    finally:
        link.close()


def played(port, facts, bids):
    """Creates a round, sends everyone's bid, and closes it. Gives what the creation answered. Raises Refused if any of this is refused."""
    def sends(path, body, key=None):
        status, _, text = asked(port, 'POST', f'/instances{path}', body, key, timeout=PATIENCE)
        if status not in (200, 201):
            raise Refused(f'{path or "a creation"}: {status} {text[:200]!r}')
        return json.loads(text)

    made = sends('', facts)
    for key, values in zip(made['keys'], bids):
        sends(f'/{made["id"]}/bids', bid_of(values), key)
    sends(f'/{made["id"]}/close', b'', made['organiser'])
    return made


def journal_events(journal):
    """The bodies of the events in the bytes of a journal, as far as its gates are open (docs/JOURNAL.md)."""
    at = JOURNAL_FRONT
    while journal[at]:
        size = int.from_bytes(journal[at + 1:at + 5], 'little')
        yield journal[at + 5:at + 5 + size]
        at += 5 + size


class Host:
    """The program, as it serves so many connections with so many workers at a free port, in a folder with a journal. What it writes can be read from its
    process, which takes more words for Popen."""
    # The processes of all hosts, for a script that is cut off.
    started = []

    def __init__(self, program, folder, count=1_000_000, workers=1, **more):
        for _ in range(TRIES):
            self.port = free_port()
            words = [program, 'serve', str(self.port), str(workers), str(count)]
            self.process = subprocess.Popen(words, cwd=folder, stdin=subprocess.DEVNULL, stdout=subprocess.PIPE, **more)
            self.started.append(self.process)
            try:
                wait_for(self.port, lambda: self.process.poll() is not None)
                return
            except Silent:
                self.end()
            except BaseException:
                self.end()
                raise
        raise Silent(f'{program} does not serve in {folder}')

    def asks(self, method, path, body=None, key=None, **more):
        """Status and text of a reply."""
        status, _, text = asked(self.port, method, path, body, key, **more)
        return status, text.decode()

    def end(self):
        """It is killed, in the middle of whatever it does."""
        self.process.kill()
        self.process.communicate()


def is_gone(pid):
    """Whether a process has ended, though its parent may not have asked for its status yet."""
    try:
        with open(f'/proc/{pid}/stat', encoding='ascii', errors='replace') as file:
            return file.read().rpartition(') ')[2][:1] in 'ZX'
    except OSError:
        return True


def main(words):
    """What a script of the shell asks for; the status."""
    if words == ['port']:
        print(free_port())
    elif len(words) == 3 and words[0] == 'wait':
        try:
            wait_for(int(words[1]), lambda: is_gone(words[2]))
        except Silent:
            return 1
    elif len(words) == 4 and words[0] == 'key':
        print(key_of(bytes.fromhex(words[1]), words[2], words[3]))
    else:
        print(__doc__, file=sys.stderr)
        return 2
    return 0


if __name__ == '__main__':
    sys.exit(main(sys.argv[1:]))
