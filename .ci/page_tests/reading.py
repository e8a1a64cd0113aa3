"""Parts of rung (c): what a screen reader is told of a bid, what stays where somebody forces their own colours upon all pages, and how many clicks a rent
takes, with how many words to read."""
import json
import re

from driver import ELEMENT, KEYS
from tally import TALLY, api, check, same, soon, tag

FLAT = {'kind': 'rent', 'title': 'Mill Road', 'members': ['Ann', 'Ben'], 'rooms': ['Attic', 'Back room'], 'rent': 90000}
# Headings and controls of the bid, in the order in which a reader meets them: what they are called, by the driver's words for it.
READ = 'main h1, main h2, main input, main button'
BID = [
    ('heading', 'Ann, what is each room worth to you?'), ('slider', 'Attic'), ('textbox', 'Attic'), ('slider', 'Back room'), ('textbox', 'Back room'),
    ('button', 'Share it out'), ('button', 'Send'), ('checkbox', 'Remember this in this browser'), ('heading', '0 of 2 have answered'),
]
# How many clicks a rent for three takes at most; what is typed goes from field to field by Enter or Tab.
MOST_CLICKS = {'organiser': 9, 'member': 3}
# How many words there are to read on its way at most, in each language: what was measured, rounded up to the next ten.
MOST_WORDS = {'organiser': {'en': 410, 'de': 380}, 'member': {'en': 240, 'de': 240}}
# The views of that way, each with something that stands in it.
VIEWS = {'start': '.kinds', 'form': '#title', 'links': '.links .person', 'bid': '#value-0', 'result': '#judges[data-by=both]'}
WAYS = {'organiser': ('start', 'form', 'links'), 'member': ('bid', 'result')}
# What is read of a view, without the hint that a table goes on to the right, which depends on the fonts of the machine.
READABLE = '''const hints = [...document.querySelectorAll("main .more")].filter((e) => e.getClientRects().length);
return hints.reduce((text, hint) => text.replace(hint.innerText, ""), document.querySelector("main").innerText)'''
OLD = 'for (const e of document.querySelectorAll(arguments[0])) e.dataset.old = ""'
UNANSWERED = 'const { fetch } = window; window.fetch = (path, how) => (how?.method === "POST" ? fetch(path, how) : new Promise(() => {}))'
IN_ORDER = '''return [...document.querySelectorAll(arguments[0])].filter((e) => e.getClientRects().length)'''
DESCRIBED = '''return (document.querySelector(arguments[0]).getAttribute("aria-describedby") || "").split(" ").map((id) => document.getElementById(id).textContent).filter(Boolean)'''
# What has a frame, and what has a bar, with the colours that are left of each: a frame of no width, or of its ground's colour, is none.
FRAMES = '''const found = [];
for (const e of document.querySelectorAll(arguments[0])) {
  if (!e.getClientRects().length) continue;
  const s = getComputedStyle(e);
  if (!(parseFloat(s.borderTopWidth) > 0) || s.borderTopStyle === "none" || s.borderTopColor === getComputedStyle(document.body).backgroundColor) found.push(e.outerHTML.slice(0, 80));
}
return found'''
BARS = '''return [...document.querySelectorAll(".plot .fill, .track .fill, .meter span")].filter((e) => e.getClientRects().length).map((e) => {
  const [own, under] = [e, e.parentElement].map((one) => getComputedStyle(one));
  if (e.tagName === "rect") return own.fill !== "none" && own.stroke !== "none";
  return own.backgroundColor !== under.backgroundColor && own.backgroundColor !== "rgba(0, 0, 0, 0)" || parseFloat(own.borderTopWidth) > 0;
})'''
FRAMED = '.card, .box, .hero, .standing, .meter, .kind, .place, button:not(.link, .add, .icon-only), select, input:not([type=range]):not([type=radio]):not([type=checkbox]):not([type=file])'


def a_flat(rig):
    """A rent for two: its reply, and the link of the first member."""
    made = api(rig, 'instances', body={**FLAT, 'deadline': soon(86400), 'tag': tag()})
    return made, f'{rig.url}#{made["id"]}.{made["keys"][0]}.EUR'


def told(p, selector):
    """Role and name of each element, as the browser gives them to a screen reader."""
    found = [element[ELEMENT] for element in p.run(IN_ORDER, selector)]
    return [(p.ask('GET', f'/element/{e}/computedrole'), p.ask('GET', f'/element/{e}/computedlabel')) for e in found]


def read_aloud(rig, olive, ann, ben):
    """A bid as a screen reader has it: what is there, in which order, what belongs to a field, and what is said without being asked for."""
    made, link = a_flat(rig)
    ann.open(link)
    ann.one('#value-0')
    ann.one('.remember input')
    same('what is read of a bid', told(ann, READ), BID)
    same('the fields stand in a group', [role for role, _ in told(ann, 'main fieldset')], ['group'])
    same('the field knows what is left', ann.run(DESCRIBED, '#value-0'), ['€900.00 of €900.00 left'])
    ann.put('#value-0', 'x')
    check('and what is wrong with it', any('Enter an amount' in words for words in ann.run(DESCRIBED, '#value-0')), ann.run(DESCRIBED, '#value-0'))
    same('a field that is wrong is told so', ann.values('#value-0', 'aria-invalid'), ['true'])
    ann.put('#value-0', '500')
    same('a slider has its value in words', ann.values('input[type=range]', 'aria-valuetext'), ['€500.00', '€0.00'])
    ann.put('#value-1', '400')
    ann.press('Send')
    ann.until(lambda: 'Your answer is saved' in ann.run('return document.getElementById("live").textContent'), 20, 'it is not spoken')
    same('the place for what is spoken', told(ann, '#live')[0][0], 'status')
    same('what stands is not spoken a second time', ann.values('#stands', 'aria-live'), [None])
    ann.click('#languages button')
    ann.one('dialog.help[open]')
    same('the help is a dialog with a name', told(ann, 'dialog.help'), [('dialog', 'Saying what things are worth')])
    ann.click('dialog.help button')


def own_bid(rig, olive, ann, ben):
    """One's own bid is counted at once, also if nobody answers who has bid."""
    _, link = a_flat(rig)
    ann.open(link)
    ann.one('#value-0')
    ann.put('#value-0', '500')
    ann.put('#value-1', '400')
    ann.run(UNANSWERED)
    ann.press('Send')
    ann.has('Your answer is saved', '#message')
    same('the bid is counted, though nobody could be asked', ann.text('.people h2'), '1 of 2 has answered')


def colours_forced(rig, olive, ann, ben):
    """With colours that somebody forced upon all pages, frames and bars stay."""
    made, link = a_flat(rig)

    def looked(what):
        ann.settled()
        ann.look(False, forced=True)
        same(f'{what}: what has lost its frame', ann.run(FRAMES, FRAMED), [])
        bars = ann.run(BARS)
        same(f'{what}: bars that are seen', bars, [True] * len(bars))
        ann.look(False)
        return len(bars)
    ann.open(rig.url)
    ann.one('.kinds')
    looked('the start')
    ann.open(link)
    ann.one('#value-0')
    ann.put('#value-0', '500')
    check('a bid has a bar', looked('a bid') == 1)
    ann.put('#value-1', '400')
    ann.press('Send')
    ann.has('Your answer is saved', '#message')
    looked('a bid that is sent')
    api(rig, f'instances/{made["id"]}/bids', made['keys'][1], {'turn': 1, 'values': [50000, 40000]})
    api(rig, f'instances/{made["id"]}/close', made['organiser'], {})
    ann.reload()
    ann.judged('yes')
    check('a result has bars', looked('a result') >= 2)


def is_word(word):
    return re.search(r'[^\W\d_]', word)


def words(p, view, seen):
    """Counts into `seen` the words of a view, as it is first shown, in each language: all in its main part but what is folded up. It ends in English."""
    for code in ('de', 'en'):
        p.run(OLD, VIEWS[view])
        p.speak(code)
        p.until(lambda: p.all(f'html[lang={code}] :is({VIEWS[view]}):not([data-old])'), 30, f'the view {view} does not speak {code}')
        p.settled()
        text = p.run(READABLE)
        seen[code, view] = sum(1 for word in text.split() if is_word(word))


def measured(clicked, seen):
    """Compares the clicks and the words with what they may be, and puts them into the last line."""
    TALLY.told.append('clicks of a rent: ' + ', '.join(f'{who} {n}' for who, n in clicked.items()))
    for who, n in clicked.items():
        check(f'the {who} clicks {n} times, above {MOST_CLICKS[who]}', n <= MOST_CLICKS[who])
    for who, most in MOST_WORDS.items():
        for code, bound in most.items():
            counts = {view: seen[code, view] for view in WAYS[who]}
            whole = sum(counts.values())
            check(f'the {who} reads {whole} words in {code}, above {bound}: {counts}', whole <= bound)
            TALLY.told.append(f'words for the {who} in {code}: {whole} ({", ".join(f"{view} {n}" for view, n in counts.items())})')


def created(p, start, seen):
    """The organiser creates the rent. Gives the members' links."""
    p.open(start)
    p.run('localStorage.clear(); sessionStorage.clear()')
    p.reload()
    p.one('.kinds')
    words(p, 'start', seen)
    p.clicks = 0
    p.click('.kind.rent')
    p.one('#title')
    words(p, 'form', seen)
    p.click('#members button.add')
    p.click('#title')
    for typed in ('Mill Road', 'Ann', 'Ben', 'Cy', 'Attic', 'Back room', 'Cellar', '900'):
        p.keys([*typed, KEYS['enter']])
    p.press('Create the links')
    p.one('#link-0')
    words(p, 'links', seen)
    links = p.values('.links input', 'value')
    for line in range(3):
        p.click('.links .do > button', line)
    return links


def sent(p, link, values, seen):
    """A member bids. Gives how many clicks that took; counts words too, if there is somewhere to count them into."""
    p.open(link)
    p.one('#value-0')
    if seen is not None:
        words(p, 'bid', seen)
    p.clicks = 0
    p.click('#value-0')
    p.keys([*values[0], KEYS['tab'], KEYS['tab']] if p.focused()['id'] == 'value-0' else [])
    same('the next field', p.focused()['id'], 'value-1')
    p.keys(list(values[1]))
    p.press('Share it out')
    p.press('Send')
    p.has('Your answer is saved', '#message')
    return p.clicks


def clicks(rig, olive, ann, ben):
    """A rent for three: how many clicks it takes, and how many words there are to read."""
    seen = {}
    links = created(olive, rig.url, seen)
    bids = (('400', '300'), ('300', '300'), ('200', '300'))
    member = max(sent(ann, link, values, None if at else seen) for at, (link, values) in enumerate(zip(links, bids)))
    olive.run('document.dispatchEvent(new Event("visibilitychange"))')
    olive.until(lambda: olive.enabled('Show the result'), 60, 'close is not offered')
    olive.press('Show the result')
    olive.accept()
    olive.clicks += 1
    olive.judged()
    ann.open(links[0])
    ann.one(VIEWS['result'], 60)
    words(ann, 'result', seen)
    measured({'organiser': olive.clicks, 'member': member}, seen)


READING = [read_aloud, own_bid, colours_forced, clicks]
