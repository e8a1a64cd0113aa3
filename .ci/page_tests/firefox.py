"""Firefox for the tests of the page, by Marionette: what geckodriver speaks with it, each message the length of a JSON list, a colon, and the list."""
import base64
import json
import os
import shutil
import socket
import subprocess

from driver import PATIENCE, Browser, Fault, ended
from rig import free_port, wait_for

FIREFOX = shutil.which('firefox-esr') or shutil.which('firefox')
# Nothing of the browser's own comes between, and nothing is asked of anybody else.
SETTINGS = {
    'browser.shell.checkDefaultBrowser': False, 'browser.aboutwelcome.enabled': False, 'browser.startup.homepage_override.mstone': 'ignore', 'browser.startup.page': 0,
    'datareporting.policy.dataSubmissionEnabled': False, 'toolkit.telemetry.reportingpolicy.firstRun': False, 'app.update.enabled': False, 'extensions.update.enabled': False,
    'network.captive-portal-service.enabled': False, 'network.connectivity-service.enabled': False, 'services.settings.server': 'http://127.0.0.1:1/', 'network.proxy.type': 0,
    'dom.disable_beforeunload': True, 'ui.useOverlayScrollbars': 1, 'browser.download.folderList': 2, 'browser.download.useDownloadDir': True, 'browser.download.alwaysOpenPanel': False,
    'browser.helperApps.neverAsk.saveToDisk': 'text/plain,text/calendar,application/json,image/png',
}
# The commands of the protocol by those of WebDriver that the tests use: method and path, where * is an element.
COMMANDS = {
    'GET /url': 'GetCurrentURL', 'POST /url': 'Navigate', 'POST /refresh': 'Refresh', 'POST /execute/sync': 'ExecuteScript', 'POST /elements': 'FindElements',
    'POST /element/*/click': 'ElementClick', 'POST /element/*/clear': 'ElementClear', 'POST /element/*/value': 'ElementSendKeys', 'POST /actions': 'PerformActions',
    'POST /alert/accept': 'AcceptAlert', 'POST /alert/dismiss': 'DismissAlert', 'GET /alert/text': 'GetAlertText', 'GET /window': 'GetWindowHandle',
    'POST /window': 'SwitchToWindow', 'DELETE /window': 'CloseWindow', 'POST /window/new': 'NewWindow', 'GET /element/*/computedrole': 'GetComputedRole', 'GET /element/*/computedlabel': 'GetComputedLabel',
}
LOOK = '''Services.prefs.setIntPref("layout.css.prefers-color-scheme.content-override", arguments[0] ? 0 : 1);
Services.prefs.setIntPref("ui.prefersReducedMotion", 1);
Services.prefs.setIntPref("browser.display.document_color_use", arguments[1] ? 2 : 1);'''
SIZE = '''const { style, parentNode } = Services.wm.getMostRecentWindow("navigator:browser").gBrowser.selectedBrowser;
Object.assign(style, { flex: "none", maxWidth: "none", width: `${arguments[0]}px`, height: `${arguments[1]}px` });
parentNode.style.overflow = "visible";'''
COMPLAINTS = '''const found = Services.console.getMessageArray().map(String);
Services.console.reset();
return found.filter((line) => /JavaScript Error|Content-Security-Policy/.test(line) && /"(https?:\\/\\/127|file:)/.test(line));'''


class Firefox:
    """Firefox: nothing is started before the first browser."""
    name = 'Firefox'
    needs = {'firefox': FIREFOX}

    def browser(self, phone=False, language='en-GB'):
        return FirefoxBrowser(phone, language)

    def end(self):
        pass


class FirefoxBrowser(Browser):
    """Firefox without a window."""
    switches = ('--headless',)
    around = {}  # of the environment that it is started in

    def __init__(self, phone, language):
        super().__init__(phone)
        port = free_port()
        settings = {**SETTINGS, 'marionette.port': port, 'intl.accept_languages': language, 'intl.locale.requested': language, 'browser.download.dir': self.profile + '/files'}
        with open(self.profile + '/user.js', 'w', encoding='utf-8') as file:
            file.writelines(f'user_pref({json.dumps(name)}, {json.dumps(value)});\n' for name, value in settings.items())
        words = [FIREFOX, *self.switches, '--marionette', '--remote-allow-system-access', '--no-remote', '--profile', self.profile]
        around = {**os.environ, **self.around, 'HOME': self.profile, 'MOZ_HEADLESS_WIDTH': '1400', 'MOZ_HEADLESS_HEIGHT': '1000'}
        self.process = subprocess.Popen(words, stdout=subprocess.DEVNULL, stderr=subprocess.DEVNULL, env=around)
        try:
            self.begin(port)
        except BaseException:
            self.end()
            raise

    def begin(self, port):
        """Waits for the browser, which a busy machine starts slowly, and opens the session."""
        wait_for(port)
        self.link = socket.create_connection(('127.0.0.1', port), PATIENCE)
        self.number = 0
        self.heard()
        self.session = self.told('WebDriver:NewSession', acceptInsecureCerts=True, unhandledPromptBehavior='ignore')['sessionId']
        self.size(*self.home)
        self.look(False)

    def heard(self):
        """The next message."""
        head = b''
        while not head.endswith(b':'):
            more = self.link.recv(1)
            if not more:
                raise Fault('Firefox has ended')
            head += more
        message = b''
        while len(message) < int(head[:-1]):
            message += self.link.recv(65536)
        return json.loads(message)

    def told(self, command, **given):
        """The answer to a command."""
        self.number += 1
        message = json.dumps([0, self.number, command, given]).encode()
        self.link.sendall(b'%d:%s' % (len(message), message))
        while True:
            _, number, fault, value = self.heard()
            if number == self.number:
                break
        if fault:
            raise Fault(f"{fault['error']}: {(fault['message'] or ' ').splitlines()[0]}")
        return value['value'] if isinstance(value, dict) and set(value) == {'value'} else value

    def call(self, method, path, body=None):
        """One command of WebDriver, as Marionette has it."""
        path = path.removeprefix(f'/session/{self.session}')
        given = dict(body or {})
        words = path.split('/')
        if words[1] == 'element':
            given['id'] = words[2]
            path = '/'.join(['', 'element', '*', *words[3:]])
        return self.told('WebDriver:' + COMMANDS[f'{method} {path}'], **given)

    def chrome(self, script, *given):
        """Runs a script in the browser itself, not in the page."""
        self.told('Marionette:SetContext', value='chrome')
        try:
            return self.run(script, *given)
        finally:
            self.told('Marionette:SetContext', value='content')

    def look(self, dark, forced=False):
        self.chrome(LOOK, dark, forced)

    def size(self, width, height):
        self.chrome(SIZE, width, height)
        self.until(lambda: self.run('return innerWidth') == width, 10, f'the page does not become {width} wide')

    def shot(self, path, selector=None, quality=None):
        given = {'id': self.all(selector)[0]} if selector else {'full': True}
        with open(path, 'wb') as file:
            file.write(base64.b64decode(self.told('WebDriver:TakeScreenshot', **given)))

    def complaints(self):
        return self.chrome(COMPLAINTS)

    def end(self):
        try:
            if self.session:
                self.told('Marionette:Quit', flags=['eForceQuit'])
                self.process.wait(30)
        except (OSError, Fault, subprocess.TimeoutExpired):
            pass
        if self.process.poll() is None:
            ended(self.process)
        if self.link:
            self.link.close()
        shutil.rmtree(self.profile, ignore_errors=True)
