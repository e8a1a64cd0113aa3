"""Parts of rung (c): a server that lies. A proxy between page and host changes each field of each reply in turn, and the page must not say "Yes"
over anything that its certificate doesn't show, or that was different when this browser saw it before the close."""
import json
import re

from tally import api, check, get_text, money, same, soon, tag

LOOKED = '''const verdict = document.querySelector("#verdict");
const cards = [...document.querySelectorAll(".hero h1, .hero .lead, main section:not(.hero), main .fold, main .card")];
// All that a card says, without the hint that a table goes on to the right, which depends on when the page was laid out.
const said = (card) => [...card.querySelectorAll(".more")].reduce((text, more) => text.replace(more.textContent, ""), card.textContent).replace(/\\s+/g, " ");
return {verdict: verdict ? verdict.dataset.verdict : null, good: !!verdict && verdict.classList.contains("good"), says: verdict ? verdict.textContent : "",
  below: cards.map(said).join("\\n"), hero: [...document.querySelectorAll(".hero h1, .hero .lead")].map((e) => e.innerText).join(" "),
  numbers: Object.fromEntries(["pays", "points", "product", "total", "all", "alone", "way", "flag", "leg"].map((key) => [key, [...document.querySelectorAll(`[data-${key}]`)].sort((a, b) => (a.dataset.member ?? 0) - (b.dataset.member ?? 0)).map((e) => e.dataset[key])])),
  shown: [...document.querySelectorAll("[data-pays], [data-alone], [data-way], [data-flag], [data-leg], [data-total], [data-all], [data-saved]")].map((e) => [Object.entries(e.dataset).find(([key]) => key !== "exact" && key !== "member")[1], e.textContent])}'''
# A note on the server's clock may stand above a result that is still to come.
IS_DRAWN = 'return !!document.querySelector("#verdict, #stands, main .box")'
OUTSIDE_OF_BDI = '''const walker = document.createTreeWalker(document.querySelector("main"), NodeFilter.SHOW_TEXT), found = [];
while (walker.nextNode()) {
  const node = walker.currentNode;
  if (arguments[0].some((name) => node.data.includes(name)) && !node.parentElement.closest("bdi, option, textarea")) found.push(node.data);
}
return found'''
UNSEEN = 'has nothing from before the round closed'
LATE = 1  # seconds more for each reply
PEOPLE = ['Ann~', 'Ben~', 'Çağla~']
FIELDS_OF_NAMES = ('title', 'members', 'rooms', 'goods', 'places', 'you')


# The page asks the server for everything again, as after a reload, but its scripts are not loaded again, which takes longest.
DRAW_AGAIN = 'document.querySelector("main").replaceChildren(); dispatchEvent(new HashChangeEvent("hashchange"))'


def looked(p, url):
    """The result as a person reads it."""
    if p.run('return location.href') == url:
        p.run(DRAW_AGAIN)
    else:
        p.open(url)
    p.until(lambda: p.run(IS_DRAWN), 30, f'nothing is drawn: {p.text()!r}')
    p.settled()
    return p.run(LOOKED)


class Tampered:
    """A closed round: Ann bid in her browser, and Ben's never saw the round before the close."""

    def __init__(self, rig, ann, ben, creation, bids):
        self.rig, self.ann, self.ben = rig, ann, ben
        self.kind = creation['kind']
        made = api(rig, 'instances', body={**creation, 'members': PEOPLE, 'deadline': soon(86400), 'tag': tag()})
        self.path, self.keys = f'instances/{made["id"]}', made['keys']
        self.urls = [f'{rig.url}#{made["id"]}.{key}.EUR' for key in self.keys]
        ann.open(self.urls[0])
        for i, value in enumerate(bids[0] if isinstance(bids[0], list) else []):
            ann.put(f'#value-{i}', str(value / 100) if self.kind == 'rent' else str(value))
        if self.kind == 'fares':
            ann.click('.place', bids[0] - 1)
        same(f'names outside of bdi in a bid, {self.kind}', ann.run(OUTSIDE_OF_BDI, ['~']), [])
        ann.press('Send')
        ann.until(lambda: ann.text('#message'), 20, 'the bid was not answered')
        for key, bid in list(zip(self.keys, bids))[1:]:
            api(rig, f'{self.path}/bids', key, {'turn': 1, **({'values': bid} if isinstance(bid, list) else {'place': bid})})
        api(rig, f'{self.path}/close', made['organiser'], {})
        self.certificate = get_text(rig, f'{self.path}/certificate', self.keys[0])
        self.honest = {}
        for who, p, url in (('ann', ann, self.urls[0]), ('ben', ben, self.urls[1])):
            self.honest[who] = view = looked(p, url)
            same(f'an honest {self.kind}, {who}', (view['verdict'], view['good'], UNSEEN in view['says']), ('yes', who == 'ann', who == 'ben'))  # a word alone is amber
            same(f'names outside of bdi, {self.kind}', p.run(OUTSIDE_OF_BDI, ['~']), [])
            for cents, shown in view['shown']:
                check(f'{cents} is written {shown}', shown == money(int(cents)) or shown == money(abs(int(cents))))

    def with_reply(self, word, body):
        """A server that answers this at a path that ends with the word, or at the round itself if the word is empty."""
        wanted = f'/{self.path}/{word}' if word else f'/{self.path}'
        self.rig.lossy.alter = lambda first, _: body.encode() if first.split()[0] == 'GET' and first.split()[1] == wanted else None

    def honest_again(self):
        self.rig.lossy.alter = None

    def json_replies(self):
        """Each field of the status and of the division, as something else."""
        for word in ('', 'division'):
            said = api(self.rig, f'{self.path}/{word}'.rstrip('/'), self.keys[0])
            for field, value in said.items():
                for other in others(value):
                    yield word, field, other, {**said, field: other}

    def texts(self):
        """The texts beside the certificate, with other numbers and words."""
        for word in ('audit', 'report', 'winner'):
            try:
                text = get_text(self.rig, f'{self.path}/{word}', self.keys[0])
            except OSError:  # there is none of this kind
                continue
            yield word, re.sub(r'\d+', '1', text).replace('fails', 'content').replace('no', 'yes')

    def said_otherwise(self):
        for who, p, url, you in (('ann', self.ann, self.urls[0], 1), ('ben', self.ben, self.urls[1], 2)):
            for word, field, other, said in self.json_replies():
                self.with_reply(word, json.dumps(said if word or field == 'you' else {**said, 'you': you}))
                self.compare(who, looked(p, url), f'{self.kind}, {who}: {word or "status"} with {field} {other!r}', word == '' and field)
        for word, text in self.texts():
            self.with_reply(word, text)
            self.compare('ann', looked(self.ann, self.urls[0]), f'{self.kind}: another {word}', '')
        self.honest_again()

    def compare(self, who, view, what, field):
        """What the page says after a changed reply. `field` is the field of the status, if that was changed."""
        honest = self.honest[who]
        if view['verdict'] != 'yes':
            check(f'{what}: no yes', not view['good'] and 'Checked' not in view['says'], view['says'])
            return
        same(f'{what}: the numbers', view['numbers'], honest['numbers'])
        if not field or (who == 'ann' and view['good']):
            same(f'{what}: all that stands there', (view['says'], view['below']), (honest['says'], honest['below']))
        if who == 'ann' and field in FIELDS_OF_NAMES:
            check(f'{what} is told in red', not view['good'], view['says'])
            same(f'{what}: the share', view['hero'], honest['hero'])
        if who == 'ben' and field:
            check(f'{what}: it says whose word the names are', not view['good'] or UNSEEN in view['says'], view['says'])

    def other_certificates(self):
        """The certificate, line by line."""
        lines = self.certificate.split('\n')
        for at, line in enumerate(lines):
            for other in other_lines(line):
                forged = '\n'.join([*lines[:at], other, *lines[at + 1:]])
                if forged == self.certificate:
                    continue
                self.with_reply('certificate', forged)
                view = looked(self.ann, self.urls[0])
                what = f'{self.kind}, line {at + 1} as {other!r}'
                if line.startswith(('steps', 'limit')) and view['verdict'] == 'yes':
                    same(f'{what}: nothing of it is shown', view['below'], self.honest['ann']['below'])
                elif view['verdict'] == 'yes':
                    check(f'{what}: a true certificate of other bids is told in red', not view['good'] or mine(forged) == mine(self.certificate), view['says'])
                else:
                    check(f'{what}: nothing is drawn', not view['hero'] and not view['shown'] and 'Checked' not in view['says'], view['says'])
        self.honest_again()

    def no_certificate(self):
        """A server without a certificate: nothing was checked, and the page says so in place of the verdict."""
        for text in ('', 'fairsplit 1\n'):
            self.with_reply('certificate', text)
            same('no certificate', (looked(self.ann, self.urls[0])['verdict'], self.ann.all('.hero')), ('refused', []))
        refusal = (b'HTTP/1.1 403 Forbidden', b'{"code":"wrong_key"}')
        self.rig.lossy.alter = lambda first, _: refusal if first.split()[1].endswith('/certificate') else None
        view = looked(self.ann, self.urls[0])
        same('a refusal', (view['verdict'], view['good'], 'Nothing was checked' in view['says'], view['hero']), ('none', False, True, ''))
        check('whatever stands below is what the server says', 'What the server says' in view['below'], view['below'])
        self.honest_again()

    def late_certificate(self):
        """A note above a result is there before the result: whoever reads the page waits for both."""
        said = api(self.rig, self.path, self.keys[0])
        self.with_reply('', json.dumps({**said, 'bids': said['bids'][:-1]}))
        self.rig.lossy.slow = LATE
        try:
            view = looked(self.ann, self.urls[0])
        finally:
            self.rig.lossy.slow = 0
        same('a result that comes late', (view['verdict'], view['below']), ('yes', self.honest['ann']['below']))
        self.honest_again()

    def play(self):
        try:
            self.late_certificate()
            self.said_otherwise()
            self.other_certificates()
            self.no_certificate()
        finally:
            self.honest_again()


def mine(certificate):
    """The first member's bid in a certificate."""
    row = re.search(r'^(?:values|at) (.*)$', certificate, re.M)[1].split()
    return row if 'values' in certificate else row[0]


def others(value):
    """Other values for a field."""
    if isinstance(value, list):
        return [value[1:] + value[:1], value[:-1]] if len(value) > 1 else [[]]
    if isinstance(value, bool):
        return [not value]
    if isinstance(value, int):
        return [value + 1, 99]
    return ['rent' if value == 'goods' else 'goods'] if value in ('rent', 'goods', 'fares') else ['7/3'] if value[:1].isdigit() else ['Other']


def other_lines(line):
    """Other lines in its place: with a number changed by one, with its numbers in another order, and none."""
    words = line.split(' ')
    numbers = [i for i, word in enumerate(words) if re.fullmatch(r'-?\d+', word)]
    more = [' '.join([*words[:i], str(int(words[i]) + 1), *words[i + 1:]]) for i in numbers[:1] + numbers[-1:]]
    return dict.fromkeys([*more, ' '.join([words[0], *words[2:], *words[1:2]]), ''])


def tampered_rent(rig, olive, ann, ben):
    """A rent, and a server that lies about it."""
    values = [[80000, 45050, 20000], [70000, 40000, 35050], [50000, 50000, 45050]]
    Tampered(rig, ann, ben, {'kind': 'rent', 'title': 'Flat~', 'rooms': ['Attic~', 'Back~', 'Cellar~'], 'rent': 145050}, values).play()


def tampered_goods(rig, olive, ann, ben):
    """Goods, and a server that lies about them."""
    values = [[400, 100, 250, 250], [100, 250, 450, 200], [250, 150, 300, 300]]
    Tampered(rig, ann, ben, {'kind': 'goods', 'title': 'Estate~', 'goods': ['Piano~', 'Clock~', 'Ring~', 'Desk~']}, values).play()


def tampered_fares(rig, olive, ann, ben):
    """A ride, and a server that lies about it."""
    legs = [[700, 900, 1200], [0, 350, 650], [350, 0, 450], [650, 450, 0]]
    tampered = Tampered(rig, ann, ben, {'kind': 'fares', 'title': 'Ride~', 'places': ['Mill~', 'Bridge~', 'Church~'], 'flag': 400, 'legs': legs}, [1, 3, 2])
    view = tampered.honest['ann']
    saved = int(view['numbers']['alone'][0]) - int(view['numbers']['pays'][0])
    check('what Ann saves', f'you save {money(saved)}' in view['hero'], view['hero'])
    tampered.play()


READ = 'return navigator.clipboard.readText()'
# What a button says for three seconds once it has done something stays, so that a slow machine sees it too.
STAYS = 'const { setTimeout } = window; window.setTimeout = (done, after) => (after === 3000 ? 0 : setTimeout(done, after))'


def copied(rig, olive, ann, ben):
    """Copy puts the link of its own line onto the clipboard."""
    flat = {'kind': 'rent', 'title': 'Flat', 'members': PEOPLE, 'rooms': ['A', 'B', 'C'], 'rent': 900, 'deadline': soon(86400), 'tag': tag()}
    made = api(rig, 'instances', body=flat)
    olive.cdp('Browser.grantPermissions', origin='/'.join(rig.url.split('/')[:3]), permissions=['clipboardReadWrite', 'clipboardSanitizedWrite'])
    olive.open(f'{rig.url}#{made["id"]}.{made["organiser"]}.EUR.{flat["tag"]}')
    olive.one('#link-0')
    olive.run(STAYS)
    bare = [f'{rig.url}#{made["id"]}.{key}.EUR' for key in made['keys']] + [olive.url()]
    got, messages = [], []
    for line in range(len(bare)):
        for selector, into in (('.menu button', got), ('.do > button, .keep .row > button', messages)):
            place = line * 2 if into is got else line  # the second button of a menu shows the code
            olive.run('document.querySelectorAll("main .menu")[arguments[0]].open = true', line)
            olive.click(selector, place)
            olive.until(lambda: 'Copied' in olive.texts(selector)[place], 20, f'{selector} {line} is not copied')
            into.append(olive.run(READ))
    same('what Copy the link gives', got, bare)
    check('the message has the link of its own line', all(message.endswith('\n' + url) for message, url in zip(messages, bare)), str(messages))
    same('names outside of bdi among the links', olive.run(OUTSIDE_OF_BDI, ['~']), [])
