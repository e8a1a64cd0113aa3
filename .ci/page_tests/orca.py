#!/usr/bin/env python3
"""What the screen reader orca says of a bid in Firefox. Run by hand, since orca isn't on every machine: on Debian 12 it takes orca, at-spi2-core,
speech-dispatcher and dbus beside the packages of .ci/page. Writes all that is said, and compares the parts of SAID."""
import os
import re
import subprocess
import sys
import tempfile
import time

sys.dont_write_bytecode = True
from driver import KEYS, ended
from firefox import FirefoxBrowser
from reading import a_flat
from rig import Rig
from tally import PROGRAM
from webkit import Screen

# In this order; other things may be said between them.
SAID = ['Ann, what is each room worth to you?', 'Attic slider', 'Attic entry', '€900.00 of €900.00 left', '€400.00 of €900.00 left',
        'Back room slider', 'Back room entry', 'All €900.00 spread', 'Send push button', 'Your answer is saved.']
BID = {'value-0': '500', 'value-1': '400'}
SILENT = 'CommunicationMethod "unix_socket"\nAddModule "dummy" "sd_dummy" ""\nDefaultModule dummy\n'
SPOKEN = re.compile(r"SPEECH OUTPUT: '(.*)'\{")
STOPS = 30  # of the key Tab, at most
BEGINNING, SILENCE, PATIENCE = 12, 1.5, 20  # seconds: until orca has begun, after which it has said all, and for a slow machine


class Reader:
    """A screen with orca, and the environment of a browser there."""

    def __init__(self):
        home = tempfile.mkdtemp(prefix='fairsplit-orca-')
        self.log = os.path.join(home, 'said')
        for folder in ('config/speech-dispatcher', 'run'):
            os.makedirs(os.path.join(home, folder), 0o700)
        with open(os.path.join(home, 'config/speech-dispatcher/speechd.conf'), 'w', encoding='ascii') as file:
            file.write(SILENT)
        self.screen = Screen()
        self.around = {'DISPLAY': self.screen.display, 'HOME': home, 'XDG_CONFIG_HOME': home + '/config', 'XDG_RUNTIME_DIR': home + '/run', 'GNOME_ACCESSIBILITY': '1'}
        self.started = [self.begin('/usr/libexec/at-spi-bus-launcher', '--launch-immediately'), self.begin('speech-dispatcher', '-s', '-c', 'unix_socket'),
                        self.begin('orca', '--replace', f'--debug-file={self.log}')]
        time.sleep(BEGINNING)

    def begin(self, *words):
        return subprocess.Popen(words, env={**os.environ, **self.around}, stdout=subprocess.DEVNULL, stderr=subprocess.DEVNULL)

    def said(self):
        """All that was said so far."""
        with open(self.log, encoding='utf-8', errors='replace') as file:
            return SPOKEN.findall(file.read())

    def listen(self, before):
        """Waits until something was said beyond so many things, and then nothing for a while."""
        end, heard = time.time() + PATIENCE, len(self.said())
        while time.time() < end:
            time.sleep(SILENCE)
            now = len(self.said())
            if now == heard > before:
                return
            heard = now

    def end(self):
        for process in reversed(self.started):
            ended(process)
        self.screen.end()


def bid(p, reader):
    """Bids with the keyboard only, and listens to what is said of each key."""
    def press(keys):
        before = len(reader.said())
        p.keys(keys)
        reader.listen(before)
    for _ in range(STOPS):
        press([KEYS['tab']])
        now = p.focused()
        if now['id'] in BID:
            press(list(BID[now['id']]))
        if now['text'] == 'Send':
            press([KEYS['enter']])
            p.has('Your bid is saved.', '#message')
            reader.listen(len(reader.said()))
            return


def lacking(said):
    """The first part that wasn't said in its place, if any."""
    left = iter(said)
    return next((part for part in SAID if not any(words.startswith(part) for words in left)), None)


def main():
    reader = rig = p = None
    try:
        reader, rig = Reader(), Rig(PROGRAM)
        FirefoxBrowser.switches, FirefoxBrowser.around = (), reader.around
        p = FirefoxBrowser(False, 'en-GB')
        p.open(a_flat(rig)[1])
        p.one('.remember input')
        reader.listen(0)
        bid(p, reader)
        said = reader.said()
    finally:
        for opened in filter(None, (p, rig, reader)):
            opened.end()
    print('\n'.join(said))
    print(f'orca: {lacking(said)!r} was not said' if lacking(said) else 'orca: all of a bid was said')
    sys.exit(lacking(said) is not None)


if __name__ == '__main__':
    if sys.argv[1:] != ['inside']:  # a bus of its own
        os.execvp('dbus-run-session', ['dbus-run-session', '--', sys.executable, os.path.abspath(__file__), 'inside'])
    main()
