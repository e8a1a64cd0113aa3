"""What the parts of rung (c) share: what was right and wrong, the program, and requests to the host without a browser."""
import json
import os
import ssl
import subprocess
import time
import urllib.parse
import urllib.request

from rig import HERE

TOP = os.path.realpath(os.path.join(HERE, '../..'))
PROGRAM = os.path.abspath(os.environ.get('FAIRSPLIT', os.path.join(TOP, 'crates/fairsplit/out/fairsplit')))


class Tally:
    """Counts what was right and what was wrong."""
    right = wrong = texts = 0
    shots = None
    picture = False

    def __init__(self):
        self.told = []  # what else the last line says

    def check(self, what, held, more=''):
        if held:
            self.right += 1
        else:
            self.wrong += 1
            print(f'page: {what} {more}', flush=True)

    def same(self, what, got, wanted):
        self.check(what, got == wanted, f'\n   got    {got!r}\n   wanted {wanted!r}')


TALLY = Tally()
check, same = TALLY.check, TALLY.same


def program(words, text):
    return subprocess.run([PROGRAM, *words.split()], input=text.encode(), capture_output=True, check=False).stdout.decode()


def money(cents, sign='€'):
    return f'{"−" if cents < 0 else ""}{sign}{abs(cents) // 100:,}.{abs(cents) % 100:02}'


def api(rig, path, key=None, body=None):
    """Sends a request to the host without a browser."""
    request = urllib.request.Request(urllib.parse.urljoin(rig.url, path), data=None if body is None else json.dumps(body).encode(), headers={'x-key': key} if key else {})
    with urllib.request.urlopen(request, context=ssl._create_unverified_context()) as reply:
        return json.load(reply)


def tag():
    return os.urandom(16).hex()


def soon(seconds):
    return time.strftime('%Y-%m-%dT%H:%M:%SZ', time.gmtime(time.time() + seconds))


def get_text(rig, path, key):
    """Gets a text from the host without a browser."""
    request = urllib.request.Request(urllib.parse.urljoin(rig.url, path), headers={'x-key': key})
    with urllib.request.urlopen(request, context=ssl._create_unverified_context()) as reply:
        return reply.read().decode()
