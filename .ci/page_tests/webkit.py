"""WebKit for the tests of the page: WebKitGTK's small browser by its driver, on a screen of Xvfb of its own, where a window manager gives windows their
sizes. The browser has no other look than that with which it was started, so all of it is light."""
import glob
import http.client
import json
import os
import shutil
import struct
import subprocess
import tempfile
import time
import zlib

from driver import PATIENCE, Browser, Fault, ended
from rig import free_port, wait_for
from smaller import SIGNATURE, TRUE_COLOUR, chunk

DRIVER = shutil.which('WebKitWebDriver')
SMALL_BROWSER = next(iter(sorted(glob.glob('/usr/lib/*/webkit2gtk-4.*/MiniBrowser'))), None)
SCREEN = shutil.which('Xvfb')
MANAGER = next(filter(None, map(shutil.which, ('metacity', 'openbox', 'xfwm4'))), None)
LOCALES = shutil.which('localedef')
# Without this the bar of its buttons keeps a window from being narrower than 447 pixels.
NARROW = '* { min-width: 0; min-height: 0; padding: 0; margin: 0; border: 0; font-size: 1px; }\n'
SCREEN_SIZE = '1400x6000x24'  # so high that a window can show a whole page, for a picture of it
PAINTED = 0.4  # seconds in which nothing more is painted, once all is there
WINDOW = 'return [outerWidth, outerHeight, outerHeight - innerHeight + document.documentElement.scrollHeight]'
BOX = '''scrollTo(0, 0);
const { x, y, width, height } = document.querySelector(arguments[0]).getBoundingClientRect();
return [innerHeight, ...[x, y, width, height].map(Math.round)]'''
STILL = '[Settings]\ngtk-enable-animations=0\n'
ALONE = {'WEBKIT_DISABLE_SANDBOX_THIS_IS_DANGEROUS': '1', 'WEBKIT_DISABLE_COMPOSITING_MODE': '1', 'LIBGL_ALWAYS_SOFTWARE': '1', 'NO_AT_BRIDGE': '1', 'DBUS_SESSION_BUS_ADDRESS': 'disabled:', 'GDK_BACKEND': 'x11'}


class WebKit:
    """WebKit: nothing is started before the first browser."""
    name = 'WebKit'
    needs = {'WebKitWebDriver': DRIVER, 'MiniBrowser of WebKitGTK': SMALL_BROWSER, 'Xvfb': SCREEN, 'window manager': MANAGER, 'localedef': LOCALES}

    def browser(self, phone=False, language='en-GB'):
        return WebKitBrowser(phone, language)

    def end(self):
        pass


class Screen:
    """A screen with a window manager. Each browser has its own: of several windows on one, only one would have the focus."""

    def __init__(self):
        self.started = []
        self.folder = tempfile.mkdtemp(prefix='fairsplit-screen-')
        ready, write = os.pipe()
        self.begin([SCREEN, '-displayfd', str(write), '-screen', '0', SCREEN_SIZE, '-fbdir', self.folder, '-nolisten', 'tcp'], pass_fds=[write])
        os.close(write)
        with os.fdopen(ready, encoding='ascii') as line:
            self.display = ':' + line.readline().strip()  # the first that is free
        self.begin([MANAGER], env={**os.environ, **ALONE, 'DISPLAY': self.display})

    def begin(self, words, **more):
        self.started.append(subprocess.Popen(words, stdout=subprocess.DEVNULL, stderr=subprocess.DEVNULL, **more))

    def rows(self):
        """What is on the screen, as rows of four bytes a pixel: blue, green, red and one more. It lies there as a window dump of X."""
        with open(f'{self.folder}/Xvfb_screen0', 'rb') as file:
            dump = file.read()
        head = struct.unpack('>25I', dump[:100])
        size, height, step, colours = head[0], head[5], head[12], head[19]
        begin = size + 12 * colours
        return [dump[at:at + step] for at in range(begin, begin + height * step, step)]

    def still(self):
        """The same, once nothing more is painted."""
        last, rows = None, self.rows()
        while rows != last:
            time.sleep(PAINTED)
            last, rows = rows, self.rows()
        return rows

    def picture(self, path, page_height, box):
        """Writes a picture of a box of the page, which ends where its window ends: below it the screen is black."""
        left, top, width, height = box
        rows = self.still()
        end = max(at for at, row in enumerate(rows, 1) if any(row[4 * left:4 * left + 3]))
        out = []
        for row in rows[end - page_height + top:][:height]:
            seen = row[4 * left:4 * (left + width)]
            colours = bytearray(3 * len(seen) // 4)
            colours[0::3], colours[1::3], colours[2::3] = seen[2::4], seen[1::4], seen[0::4]
            out.append(b'\0' + colours)
        parts = (b'IHDR', struct.pack('>2I', width, len(out)) + TRUE_COLOUR), (b'IDAT', zlib.compress(b''.join(out))), (b'IEND', b'')
        with open(path, 'wb') as file:
            file.write(SIGNATURE + b''.join(chunk(kind, content) for kind, content in parts))

    def end(self):
        for process in reversed(self.started):
            ended(process)
        shutil.rmtree(self.folder, ignore_errors=True)


class WebKitBrowser(Browser):
    """WebKitGTK's small browser, and a driver of its own, which allows one session. What it saves goes to the home of its profile."""

    def __init__(self, phone, language):
        super().__init__(phone)
        self.screen = Screen()
        os.makedirs(self.profile + '/config/gtk-3.0')
        for name, words in (('gtk.css', NARROW), ('settings.ini', STILL)):
            with open(f'{self.profile}/config/gtk-3.0/{name}', 'w', encoding='utf-8') as file:
                file.write(words)
        port = free_port()
        tongue = language.replace('-', '_')
        made = self.profile + '/locales'  # its languages are those of the machine, which rarely has them all
        os.mkdir(made)
        subprocess.run([LOCALES, '-i', tongue, '-f', 'UTF-8', f'{made}/{tongue}.UTF-8'], stdout=subprocess.DEVNULL, stderr=subprocess.DEVNULL, check=False)
        places = {'HOME': 'files', 'XDG_CONFIG_HOME': 'config', 'XDG_CACHE_HOME': 'cache', 'XDG_DATA_HOME': 'data', 'XDG_RUNTIME_DIR': 'run'}
        os.mkdir(self.profile + '/run', 0o700)
        around = {**os.environ, **ALONE, **{name: f'{self.profile}/{place}' for name, place in places.items()}, 'DISPLAY': self.screen.display,
                  'LOCPATH': made, 'LANG': tongue + '.UTF-8', 'LC_ALL': tongue + '.UTF-8', 'LANGUAGE': tongue}
        self.process = subprocess.Popen([DRIVER, f'--port={port}'], stdout=subprocess.DEVNULL, stderr=subprocess.DEVNULL, env=around)
        try:
            self.begin(port)
        except BaseException:
            self.end()
            raise

    def begin(self, port):
        """Waits for the driver, and opens the session, with which the browser starts."""
        wait_for(port)
        self.link = http.client.HTTPConnection('127.0.0.1', port, timeout=PATIENCE)
        options = {'binary': SMALL_BROWSER, 'args': ['--automation']}
        wanted = {'acceptInsecureCerts': True, 'unhandledPromptBehavior': 'ignore', 'webkitgtk:browserOptions': options}
        self.session = self.call('POST', '/session', {'capabilities': {'alwaysMatch': wanted}})['sessionId']
        self.size(*self.home)

    def look(self, dark, forced=False):
        """Nothing: it looks as it was started."""

    def size(self, width, height):
        self.ask('POST', '/window/rect', {'x': 0, 'y': 0, 'width': width, 'height': height})
        self.until(lambda: self.run('return [innerWidth, outerHeight]') == [width, height], 10, f'the page does not become {width} by {height}')

    def keys_that_ask(self, words):
        """The driver answers keys once the page has gone on, and that waits for the question: so the answer is not waited for before."""
        beside = http.client.HTTPConnection(self.link.host, self.link.port, timeout=PATIENCE)
        beside.request('POST', f'/session/{self.session}/actions', json.dumps(self.strokes(words)), {'Content-Type': 'application/json'})
        self.until(self.accepted, 30, 'nothing is asked')
        beside.getresponse().read()
        beside.close()

    def accepted(self):
        """Whether there was a question to say yes to."""
        try:
            self.accept()
            return True
        except Fault:
            return False

    def shot(self, path, selector=None, quality=None):
        """A picture of the whole page, or of one element, from the screen, in a window that is as high as the page meanwhile. The driver's own pictures
        show no more than the window, and it never answers where nothing is drawn after it was asked, as on a busy machine."""
        width, height, whole = self.run(WINDOW)
        self.size(width, max(height, whole))
        page_height, *box = self.run(BOX, selector or 'html')
        self.screen.picture(path, page_height, box)
        self.size(width, height)

    def complaints(self):
        """None: its driver does not tell them."""
        return []

    def end(self):
        try:
            if self.session:
                self.ask('DELETE', '')
        except (OSError, Fault, http.client.HTTPException):
            pass
        ended(self.process)
        self.screen.end()
        shutil.rmtree(self.profile, ignore_errors=True)
