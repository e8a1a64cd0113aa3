"""Parts of rung (c): the views of a rent in each language on a small phone, the help of each view, and a whole round in French and Polish."""
import collections
import re
import ssl
import urllib.request

from tally import TALLY, api, check, same, soon, tag

LOCALES = {'en': 'en-GB', 'de': 'de-DE', 'es': 'es-ES', 'fr': 'fr-FR', 'it': 'it-IT', 'pl': 'pl-PL'}
TOO_WIDE = 'return document.documentElement.scrollWidth - document.documentElement.clientWidth'
UNTOLD = r'return (document.querySelector("main").innerText.match(/\b(start|kinds|form|links|bid|rent|result|proof|check|facts|rules|files|names|differ|helps|own|judge)\.[a-z]\w+/g) || [])'
# Names of one word that stand on two lines, though they would fit on one.
BROKEN = r'''return [...document.querySelectorAll(".values label")].filter((label) => {
  const words = document.createRange();
  words.selectNodeContents(label);
  return !/\s/.test(label.innerText.trim()) && new Set([...words.getClientRects()].map(({ top }) => Math.round(top))).size > 1;
}).map((label) => label.innerText)'''
HELP = '#languages button'
# The guide is there in English, and for members and organisers in German.
GUIDES = collections.defaultdict(lambda: 'en', {('de', what): 'de' for what in ('the start', 'the form', 'a division', 'a bid', 'the organiser', 'the result')})


# The views that belong to no round, by their addresses, with what is there once they are drawn.
VIEWS = {'the start': ('', '.kinds'), 'the form': ('#new-rent', '#title'), 'the form of goods': ('#new-goods', '#title'), 'the form of fares': ('#new-fares', '#title'),
         'a check': ('#check', '#text'), 'a division': ('#divide', 'main .kind'), 'a broken link': ('#1.0', 'main .bad'), 'a round that is not there': ('#99999.' + '0' * 64, 'main .bad')}
UNHELPED = ('the form of goods', 'the form of fares', 'a broken link', 'a round that is not there')  # they have the help of another view
# By how much the page is too wide with letters of twice the size.
TOO_WIDE_IF_LARGE = '''const { style } = document.documentElement;
style.fontSize = "200%";
const by = Math.max(0, document.documentElement.scrollWidth - document.documentElement.clientWidth);
style.fontSize = "";
return by'''


def fits(p, what, code):
    """Nothing is wider than a small phone, nor than a usual one with letters of twice the size, and no sentence is missing."""
    p.size(320, 844)
    same(f'{what} in {code} is wider than 320 px by', p.run(TOO_WIDE), 0)
    same(f'sentences that {what} in {code} lacks', p.run(UNTOLD), [])
    same(f'names that {what} in {code} breaks', p.run(BROKEN), [])
    p.size(*p.home)
    same(f'{what} in {code}, with letters of twice the size, is wider than {p.home[0]} px by', p.run(TOO_WIDE_IF_LARGE), 0)


def helped(p, what, code):
    """The help of a view: it fits on one screen, has four paragraphs and the way to the guide, and closes with its button."""
    p.size(320, 844)
    p.click(HELP)
    p.one('dialog.help[open]')
    same(f'paragraphs of the help of {what} in {code}', len(p.all('dialog.help p')), 5)
    box = p.run('const d = document.querySelector("dialog.help"); return [d.scrollHeight - d.clientHeight, d.scrollWidth - d.clientWidth]')
    same(f'the help of {what} in {code} is larger than the screen by', box, [0, 0])
    titled = p.text('#help-title')
    [guide] = p.run('return [...document.querySelectorAll("dialog.help a")].map((a) => a.href)')
    with urllib.request.urlopen(guide, context=ssl._create_unverified_context()) as reply:
        same(f'the guide to {what} in {code}', re.search(r'<html lang="(\w+)">', reply.read().decode())[1], GUIDES[code, what])
    p.click('dialog.help button')
    p.until(lambda: not p.all('dialog.help'), 10, 'the help stays')
    p.size(*p.home)
    return titled


ENGLISH = {}  # the titles of the views in English


def entitled(titles, code):
    """Each view has a title of its own, in the language that is spoken. A bid and its result have the round's."""
    same(f'the title of a bid and of its result in {code}', titles.pop('the result'), titles['a bid'])
    same(f'titles of views in {code}', len(set(titles.values())), len(titles))
    site = titles['the start']
    check(f'each title in {code} ends with the name of the site', all(title.endswith(site) for title in titles.values()), str(titles))
    ENGLISH.update({} if ENGLISH else titles)
    same(f'titles in {code} that are English', [title for what, title in titles.items() if code != 'en' and title == ENGLISH[what]], [])


def a_rent(rig):
    """A rent for two with both bids, closed by its organiser. Gives the links."""
    made = api(rig, 'instances', body={'kind': 'rent', 'title': 'Rue de la Grande-Truanderie', 'members': ['Maximiliane', 'Władysław'],
                                       'rooms': ['Wohnschlafzimmer', 'Chambre de bonne'], 'rent': 123456, 'deadline': soon(86400), 'tag': tag()})
    for key, values in zip(made['keys'], ([70000, 53456], [60000, 63456])):
        api(rig, f'instances/{made["id"]}/bids', key, {'turn': 1, 'values': values})
    return made


def spoken(rig, p, code):
    """The views in one language, and what each is called."""
    made, titles, helps = a_rent(rig), {}, []
    member = f'#{made["id"]}.{made["keys"][0]}.EUR'

    def looked(what, address, there):
        if address:  # a step within the page, whose scripts are there already
            p.run('document.querySelector("main").replaceChildren(); location.hash = arguments[0]', address)
        else:
            p.open(rig.url)
        p.one(there, 60)
        p.settled()
        fits(p, what, code)
        titles[what] = p.run('return document.title')
        if what not in UNHELPED:
            helps.append(helped(p, what, code))
    for what, (address, there) in VIEWS.items():
        looked(what, address, there)
        same(f'the language of {what}', p.run('return document.documentElement.lang'), code)
    looked('a bid', member, '#value-0')
    looked('the organiser', f'#{made["id"]}.{made["organiser"]}.EUR', '.count')
    api(rig, f'instances/{made["id"]}/close', made['organiser'], {})
    looked('the result', member, '#verdict[data-verdict=yes]')
    same(f'each view has a help of its own in {code}', len(set(helps)), 7)
    entitled(titles, code)


def speaking(rig, olive, ann, ben):
    """Each language: the views of a rent and their help fit a small phone, and a browser that wants the language gets it."""
    for code, locale in LOCALES.items():
        p = rig.engine.browser(True, locale)
        try:
            spoken(rig, p, code)
            if TALLY.shots:
                p.shot(f'{TALLY.shots}/C-result-{code}.png')
            same(f'complaints of the browser in {code}', p.complaints(), [])
        finally:
            p.end()


def polish(rig, olive, ann, ben):
    """A bid and a result in a browser that wants Polish. Then another language is chosen, and remembered."""
    p = rig.engine.browser(True, 'pl-PL')
    try:
        made = api(rig, 'instances', body={'kind': 'goods', 'title': 'Dom', 'members': ['Ala', 'Olek'], 'goods': ['Zegar', 'Pianino'], 'limit': 200000,
                                           'deadline': soon(86400), 'tag': tag()})
        for i, values in enumerate((('700', '300'), ('298', '702'))):
            p.open(f'{rig.url}#{made["id"]}.{made["keys"][i]}')
            p.one('#value-0')
            p.put('#value-0', values[0])
            p.until(lambda: 'punkt' in p.text('.bar'), 10, 'the rest is not said')
            check('what is left is said', f'zostało {702 if i else 300} z 1000 punktów' in p.text('.bar'), p.text('.bar'))
            p.put('#value-1', values[1])
            p.press('Wyślij')
            p.has('Twoja odpowiedź jest zapisana.', '#message')
        api(rig, f'instances/{made["id"]}/close', made['organiser'], {})
        p.reload()
        p.judged('yes')
        p.has('702 punkty')
        p.has('Pianino')
        p.speak('fr')
        p.has('Vos objets', seconds=60)
        p.reload()
        p.has('Vos objets', seconds=60)
        same('the list shows the language', p.values('#languages select', 'value'), ['fr'])
        same('complaints of the browser in Polish', p.complaints(), [])
    finally:
        p.end()


SPEAKING = [speaking, polish]
