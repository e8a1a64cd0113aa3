"""Browsers for the tests of the page, with Python's standard library alone: what one person does in any of them, and Chromium by its driver, over the
driver's own protocol (W3C WebDriver). firefox.py and webkit.py have the two other engines."""
import base64
import http.client
import json
import os
import shutil
import subprocess
import tempfile
import time

from rig import free_port, wait_for

CHROMIUM = shutil.which('chromium') or shutil.which('chromium-browser') or shutil.which('google-chrome')
CHROMEDRIVER = shutil.which('chromedriver')
ELEMENT = 'element-6066-11e4-a52e-4f735466cecf'
KEYS = {'tab': '\ue004', 'enter': '\ue007', 'space': ' ', 'right': '\ue014', 'down': '\ue015'}
SWITCHES = ['--headless=new', '--no-sandbox', '--disable-gpu', '--disable-dev-shm-usage', '--no-first-run', '--disable-background-networking',
            '--disable-component-update', '--disable-sync', '--disable-extensions', '--ignore-certificate-errors',
            '--host-resolver-rules=MAP * ~NOTFOUND , EXCLUDE 127.0.0.1', '--force-prefers-reduced-motion', '--window-size=1200,900']
PUT = '''const field = document.querySelector(arguments[0]);
field.focus();
field.value = arguments[1];
field.dispatchEvent(new Event("input", {bubbles: true}));
field.blur();
field.dispatchEvent(new Event("focusout", {bubbles: true}));'''
FOCUSED = '''const e = document.activeElement;
const s = getComputedStyle(e);
return {id: e.id, tag: e.tagName, text: e.innerText, href: e.getAttribute("href") || "", seen: s.outlineStyle !== "none" && parseFloat(s.outlineWidth) > 0}'''
VALUES = 'return [...document.querySelectorAll(arguments[0])].map((e) => arguments[1] === "value" ? e.value : e.getAttribute(arguments[1]))'
# Refusals, replies that were lost on purpose, and a question on leaving a page on which nobody clicked.
NOT_TOLD = (' status of 4', ' status of 50', 'Failed to load resource', 'Blocked attempt to show a')


# Whether all of a view is there: whatever was asked for has come, and so has the verdict of the second check, if a certificate is judged.
SETTLED = 'return !document.querySelector("main [role=status], main [aria-busy=true]")'
# The same where a certificate has to be judged, perhaps with this verdict.
JUDGED = '''const verdict = document.querySelector("#verdict");
return !!verdict && (arguments[0] ?? verdict.dataset.verdict) === verdict.dataset.verdict && !document.querySelector("main [role=status], main [aria-busy=true]")'''
PARTIAL = ('.crdownload', '.part', '.wkdownload')  # at the end of the name of a file that is still being saved

SLOWNESS = 3  # how much longer than usual a busy machine may take
PAUSES = (0.01, 0.1)  # between two looks, in seconds: the first, which doubles, and the longest
PATIENCE = 300  # seconds for one command of a driver


class Fault(Exception):
    """The driver refused a command."""


def ended(process):
    """Ends a process that was started here."""
    process.terminate()
    try:
        process.wait(30)
    except subprocess.TimeoutExpired:
        process.kill()
        process.wait()


class Chromium:
    """Chromium: a chromedriver. `end` ends it."""
    name = 'Chromium'
    needs = {'chromium': CHROMIUM, 'chromedriver': CHROMEDRIVER}

    def __init__(self):
        self.port = free_port()
        words = [CHROMEDRIVER, f'--port={self.port}', '--log-level=SEVERE']
        self.process = subprocess.Popen(words, stdout=subprocess.DEVNULL, stderr=subprocess.DEVNULL, env={**os.environ, 'LANGUAGE': 'en_GB'})
        wait_for(self.port)

    def browser(self, phone=False, language='en-GB'):
        return ChromiumBrowser(self.port, phone, language)

    def end(self):
        ended(self.process)


class Browser:
    """A browser with a profile of its own: one person. What differs between the engines stands in the classes of each."""

    def __init__(self, phone):
        self.profile = tempfile.mkdtemp(prefix='fairsplit-browser-')
        os.mkdir(self.profile + '/files')
        self.home = (390, 844) if phone else (1200, 900)
        self.link = self.session = None
        self.clicks = 0

    def call(self, method, path, body=None):
        """Sends one command of the protocol. Gives its value."""
        self.link.request(method, path, None if body is None else json.dumps(body), {'Content-Type': 'application/json'})
        value = json.loads(self.link.getresponse().read())['value']
        if isinstance(value, dict) and value.get('error'):
            raise Fault(f"{value['error']}: {value['message'].partition(chr(10))[0]}")
        return value

    def ask(self, method, path, body=None):
        return self.call(method, f'/session/{self.session}{path}', body if body is not None or method != 'POST' else {})

    def open(self, url):
        self.ask('POST', '/url', {'url': 'about:blank'})
        self.ask('POST', '/url', {'url': url})

    def reload(self):
        self.ask('POST', '/refresh')

    def url(self):
        return self.ask('GET', '/url')

    def run(self, script, *given):
        return self.ask('POST', '/execute/sync', {'script': script, 'args': list(given)})

    def all(self, selector):
        return [found[ELEMENT] for found in self.ask('POST', '/elements', {'using': 'css selector', 'value': selector})]

    def one(self, selector, seconds=30):
        return self.until(lambda: self.all(selector), seconds, f'there is no {selector}')[0]

    def until(self, what, seconds=30, why='it does not come'):
        """Waits until this gives something, and gives that."""
        end = time.time() + seconds * SLOWNESS
        pause, longest = PAUSES
        while True:
            got = what()
            if got:
                return got
            if time.time() > end:
                raise AssertionError(why)
            time.sleep(pause)
            pause = min(2 * pause, longest)

    def settled(self, seconds=60):
        """Waits until nothing of the view is still to come."""
        self.until(lambda: self.run(SETTLED), seconds, f'something is still to come: {self.text()!r}')

    def judged(self, verdict=None, seconds=60):
        """Waits until a certificate has been judged twice, and with this verdict, if one is said."""
        self.until(lambda: self.run(JUDGED, verdict), seconds, f'nothing was judged twice, or not as {verdict}: {self.text()!r}')

    def saved(self, name):
        """Where a file of this name has been saved, once all of it is there; nothing before that."""
        path = os.path.join(self.profile, 'files', name)
        return os.path.exists(path) and os.path.getsize(path) > 0 and not any(os.path.exists(path + partial) for partial in PARTIAL) and path

    def text(self, selector='main'):
        return self.run('return (document.querySelector(arguments[0]) || {innerText: ""}).innerText', selector)

    def texts(self, selector):
        return self.run('return [...document.querySelectorAll(arguments[0])].map((e) => e.innerText)', selector)

    def values(self, selector, attribute):
        """An attribute of each element, or for `value` what is in the field."""
        return self.run(VALUES, selector, attribute)

    def has(self, words, selector='main', seconds=30):
        try:
            self.until(lambda: words in self.text(selector), seconds)
        except AssertionError:
            raise AssertionError(f'{words!r} is not in {self.text(selector)!r}') from None

    def click(self, selector, number=0):
        self.clicks += 1
        self.one(selector)
        element = self.all(selector)[number]
        self.run('arguments[0].scrollIntoView({block: "center"})', {ELEMENT: element})
        self.ask('POST', f'/element/{element}/click')

    def press(self, words):
        """Clicks the button that begins with these words."""
        self.clicks += 1
        self.until(lambda: self.run(FIND_BUTTON, words), 20, f'there is no button {words!r} in {self.texts("main button")}')
        element = self.run(FIND_BUTTON, words)
        self.run('arguments[0].scrollIntoView({block: "center"})', element)
        self.ask('POST', f'/element/{element[ELEMENT]}/click')

    def enabled(self, words):
        return self.run(FIND_BUTTON + '?.disabled === false', words)

    def type(self, selector, words):
        """Types these words into a field."""
        element = self.one(selector)
        self.ask('POST', f'/element/{element}/clear')
        self.ask('POST', f'/element/{element}/value', {'text': words})

    def put(self, selector, value):
        """Puts a value into a field at once, and leaves it."""
        self.one(selector)
        self.run(PUT, selector, value)

    def speak(self, code):
        """Chooses a language in the list, as a person does."""
        self.one('#languages select')
        self.run('const list = document.querySelector("#languages select"); list.value = arguments[0]; list.dispatchEvent(new Event("change"))', code)

    @staticmethod
    def strokes(words):
        """The body of a command that sends keys."""
        strokes = [{'type': kind, 'value': key} for key in words for kind in ('keyDown', 'keyUp')]
        return {'actions': [{'type': 'key', 'id': 'keys', 'actions': strokes}]}

    def keys(self, words):
        """Sends keys to whatever has the focus."""
        self.ask('POST', '/actions', self.strokes(words))

    def keys_that_ask(self, words):
        """Sends keys that make the page ask something, and says yes."""
        self.keys(words)
        self.accept()

    def focused(self):
        """The element with the focus: its id, tag, text and address, and whether one can see the focus."""
        return self.run(FOCUSED)

    def accept(self):
        self.ask('POST', '/alert/accept')

    def end(self):
        try:
            if self.session:
                self.ask('DELETE', '')
        except (OSError, Fault, http.client.HTTPException):
            pass
        shutil.rmtree(self.profile, ignore_errors=True)


class Later:
    """A browser that starts once it is needed."""

    def __init__(self, begin):
        self.__dict__.update(begin=begin, browser=None)

    def started(self):
        if self.browser is None:
            self.__dict__['browser'] = self.begin()
        return self.browser

    def __getattr__(self, name):
        return getattr(self.started(), name)

    def __setattr__(self, name, value):
        setattr(self.started(), name, value)

    def leave(self):
        """Leaves the view that is shown, which may ask the server now and then."""
        if self.browser is not None:
            self.browser.open('about:blank')

    def end(self):
        if self.browser is not None:
            self.browser.end()


class ChromiumBrowser(Browser):
    """Chromium, which the driver starts without a window."""

    def __init__(self, port, phone, language):
        super().__init__(phone)
        self.link = http.client.HTTPConnection('127.0.0.1', port, timeout=PATIENCE)
        options = {'binary': CHROMIUM, 'args': SWITCHES + [f'--user-data-dir={self.profile}', f'--lang={language}'],
                   'prefs': {'download.default_directory': self.profile + '/files', 'download.prompt_for_download': False, 'intl.accept_languages': language}}
        wanted = {'browserName': 'chrome', 'goog:chromeOptions': options, 'goog:loggingPrefs': {'browser': 'ALL'}, 'unhandledPromptBehavior': 'ignore'}
        self.session = self.call('POST', '/session', {'capabilities': {'alwaysMatch': wanted}})['sessionId']
        self.size(*self.home)
        self.look(False)

    def cdp(self, command, **given):
        return self.ask('POST', '/goog/cdp/execute', {'cmd': command, 'params': given})

    def look(self, dark, forced=False):
        """Light or dark, without motion; with the colours that somebody forced upon all pages, where that is asked for."""
        features = {'prefers-color-scheme': 'dark' if dark else 'light', 'prefers-reduced-motion': 'reduce', 'forced-colors': 'active' if forced else 'none'}
        self.cdp('Emulation.setEmulatedMedia', features=[{'name': name, 'value': value} for name, value in features.items()])

    def size(self, width, height):
        self.cdp('Emulation.setDeviceMetricsOverride', width=width, height=height, deviceScaleFactor=1, mobile=width < 600)

    def shot(self, path, selector=None, quality=None):
        """A picture of the whole page, or of one element."""
        if selector:
            box = self.run('const r = document.querySelector(arguments[0]).getBoundingClientRect(); return [r.x + scrollX, r.y + scrollY, r.width, r.height]', selector)
        else:
            size = self.cdp('Page.getLayoutMetrics')['cssContentSize']
            box = [0, 0, size['width'], size['height']]
        clip = dict(zip(('x', 'y', 'width', 'height'), box), scale=1)
        data = self.cdp('Page.captureScreenshot', format='png', captureBeyondViewport=True, clip=clip)['data']
        with open(path, 'wb') as file:
            file.write(base64.b64decode(data))

    def complaints(self):
        """What the browser wrote to its console, of any level, except for refusals by the server."""
        lines = self.ask('POST', '/se/log', {'type': 'browser'})
        return [line['message'] for line in lines if not any(words in line['message'] for words in NOT_TOLD)]


FIND_BUTTON = 'return [...document.querySelectorAll("main button")].find((b) => b.getClientRects().length && b.innerText.trim().startsWith(arguments[0]))'
