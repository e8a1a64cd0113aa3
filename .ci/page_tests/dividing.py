"""Parts of rung (c): what both checks say of a certificate, divisions without a server, the picture of a division, and the demo of the start page."""
import json
import os
import re

from rig import PAGE
from tally import TOP, check, program, same

FLAT = {'kind': 'rent', 'title': 'Flat', 'members': ['Ann', 'Ben', 'Çağla'], 'rooms': ['Attic', 'Back room', 'Cellar'], 'rent': 145050,
        'bids': [[80000, 45050, 20000], [70000, 40000, 35050], [50000, 50000, 45050]]}
ESTATE = {'kind': 'goods', 'title': 'Estate', 'members': ['Ida', 'Jo', 'Kim'], 'goods': ['Clock', 'Piano', 'Desk'], 'limit': 200000,
          'bids': [[500, 300, 200], [400, 400, 200], None]}
RIDE = {'kind': 'fares', 'title': 'Ride', 'members': ['Ann', 'Ben'], 'places': ['Station', 'Airport'], 'flag': 300,
        'legs': [[1000, 2000], [0, 1500], [1500, 0]], 'bids': [1, 2]}
# Points of four people for eighteen items, with which the search takes more than its steps.
HARD = [[60, 40, 40, 70, 60, 50, 50, 70, 70, 40, 70, 50, 50, 60, 40, 50, 60, 70],
        [100, 50, 40, 80, 40, 30, 10, 40, 60, 20, 70, 100, 70, 60, 10, 70, 100, 50],
        [80, 10, 20, 70, 60, 50, 50, 50, 110, 20, 70, 60, 50, 80, 50, 40, 70, 60],
        [50, 40, 10, 80, 70, 60, 60, 50, 50, 50, 50, 80, 90, 40, 50, 30, 80, 60]]
THINGS = {'rent': 'rooms', 'goods': 'goods', 'fares': 'places'}


def written(p, case):
    """Fills the form of a division."""
    p.put('#title', case['title'])
    for which, names in (('members', case['members']), ('things', case[THINGS[case['kind']]])):
        for i, name in enumerate(names):
            if not p.all(f'#{which}-{i}'):
                p.click(f'#{which} button.add')
            p.put(f'#{which}-{i}', name)
        while p.all(f'#{which}-{len(names)}') and not (case['kind'] == 'rent' and which == 'things'):
            p.click(f'#{which} .item button', -1)
    if case['kind'] == 'rent':
        p.put('#rent', f'{case["rent"] / 100:.2f}')
    if case['kind'] == 'fares':
        p.put('#flag', f'{case["flag"] / 100:.2f}')
        for row, legs in enumerate(case['legs']):
            for to, leg in enumerate(legs):
                if row != to + 1:
                    p.put(f'#legs-{row}-{to}', f'{leg / 100:.2f}')


def bids(p, case, is_passed):
    """Enters each bid: behind a curtain if the device is passed around."""
    for i, (name, bid) in enumerate(zip(case['members'], case['bids'])):
        if is_passed:
            p.has(f'Pass the device to {name}')
            check('a bid is hidden from the next', not p.all('#value-0, .place'))
            p.press(f'I’m {name}')
        p.has(f'{name}, {"where" if case["kind"] == "fares" else "what is"}')
        if bid is None:
            p.press(f'Leave {name} out')
            continue
        if case['kind'] == 'fares':
            p.run(f'document.querySelectorAll("input[name=place]")[{bid - 1}].click()')
        else:
            for place, value in enumerate(bid):
                p.put(f'#value-{place}', f'{value / 100:.2f}' if case['kind'] == 'rent' else value)
        p.press('Show the result' if i == len(case['members']) - 1 and not is_passed else 'Next')
    if is_passed:
        p.has('Everyone has answered')
        p.press('Show the result')


def places(p, case):
    """Where each rider gets off, all of them at once."""
    p.one('#off-0')
    for i, place in enumerate(case['bids']):
        p.run('const s = document.getElementById(arguments[0]); s.value = arguments[1]; s.dispatchEvent(new Event("change"))', f'off-{i}', str(place))
    p.press('Show the result')


def divided(p, address, case, is_passed, look_at, shots):
    """One division without a server, from the first view to its certificate."""
    p.open(address)
    p.one('main .kind, main .row button.main')
    if p.run('return document.documentElement.lang') != 'en':  # files on a disk share what they remember: another part chose this one
        p.run('document.querySelector("main").firstElementChild.dataset.old = ""')
        p.speak('en')
        p.until(lambda: p.all('html[lang=en] main > :not([data-old])'), 20, 'the page does not speak English')
    fresh(p)
    p.click(f'.kind.{case["kind"]}')
    written(p, case)
    if not is_passed:
        p.run('document.querySelectorAll("input[name=how]")[1].click()')
    what = f'{case["kind"]} {"passed around" if is_passed else "typed"} at {address[:5]}'
    look_at(p, f'the form of {what}')
    p.press('Go on')
    places(p, case) if case['kind'] == 'fares' and not is_passed else bids(p, case, is_passed)
    p.judged()
    same(f'the verdict of {what}', [p.values('#verdict', 'data-verdict'), p.values('#judges', 'data-by')], [['yes'], ['both']])
    certificate = program('solve 1', json.dumps(case))
    path = f'{p.profile}/files/division-certificate.txt'
    if os.path.exists(path):
        os.remove(path)  # that of an earlier division
    p.run('for (const one of document.querySelectorAll("main details")) one.open = true')
    p.press('Certificate')
    p.until(lambda: p.saved('division-certificate.txt'), 15, 'the certificate is not saved')
    same(f'the certificate of {what}', open(path, encoding='utf-8').read(), certificate)
    report = program('report 1', json.dumps(case))
    if case['kind'] != 'goods':
        paid = p.run('return [...document.querySelectorAll("[data-pays]")].sort((a, b) => a.dataset.member - b.dataset.member).map((e) => e.dataset.pays)')
        same(f'who pays what of {what}', paid, re.findall(r', pays (-?\d+),', report))
    look_at(p, f'the result of {what}')
    shots(p, f'C-{case["kind"]}-{"http" if address.startswith("http") else "file"}')


FAULTS = 'return [...document.querySelectorAll("main .fault, #summary h2")].map((e) => e.innerText.trim()).filter(Boolean)'


def mended(p, address):
    """What is wrong with a field is told until the field is changed, and no longer."""
    p.open(address)
    fresh(p)
    p.click('.kind.rent')
    p.press('Go on')
    p.has('6 fields need your attention')
    same('what is wrong has the focus', p.run('return document.activeElement.parentElement.id'), 'summary')
    p.type('#title', FLAT['title'])
    same('a title that was entered', [p.values('#title', 'aria-invalid'), 'Enter a title.' in p.run(FAULTS), '5 fields need your attention' in p.run(FAULTS)],
         [[None], False, True])
    written(p, FLAT)
    same('nothing is wrong any more', p.run(FAULTS), [])
    p.put('#rent', 'much')
    check('what is wrong again is told', any('Enter an amount' in words for words in p.run(FAULTS)), p.run(FAULTS))
    p.open(address)
    fresh(p)
    p.click('.kind.fares')
    written(p, RIDE)
    p.run('document.querySelectorAll("input[name=how]")[0].click()')
    p.press('Go on')
    p.press('I’m Ann')
    p.press('Next')
    same('no place is picked', p.run(FAULTS), ['Pick the place where you get off.'])
    p.click('input[name=place]')
    same('a place is picked', p.run(FAULTS), [])


def fresh(p):
    """Begins again, where something was typed before."""
    p.one('main .kind, main .row button.main')
    if not p.all('.kind'):
        p.press('Begin again')
    p.one('.kind')


def kept(p, address):
    """What everyone said is there again after "Change something" and after a reload, and whoever leaves is asked."""
    p.open(address)
    fresh(p)
    p.click('.kind.goods')
    written(p, ESTATE)
    p.run('document.querySelectorAll("input[name=how]")[1].click()')
    p.press('Go on')
    bids(p, ESTATE, False)
    p.judged()
    asks = 'const e = new Event("beforeunload", {cancelable: true}); window.dispatchEvent(e); return e.defaultPrevented'
    check('whoever leaves is asked', p.run(asks))
    for how in ('Change something', 'reload'):
        if how == 'reload':
            p.reload()
            p.press('Go on')
        else:
            p.press(how)
        p.has('Who types?')
        same(f'the form after {how}', p.values('#title', 'value'), ['Estate'])
        p.press('Go on')
        p.has('Ida, what is')
        same(f'what Ida said after {how}', p.values('.values input.number', 'value'), ['500', '300', '200'])


# A worker whose first long search finds no end: it tells how far it is, and then that its steps are over, unless it is to hang. Whatever else it is asked is left to
# the real one.
ENDLESS = '''const [isHanging] = arguments;
const Real = window.Worker;
window.Worker = class {
  constructor(...words) { this.real = new Real(...words); this.real.onmessage = (event) => this.onmessage(event); }
  postMessage(task) {
    if (!task.estate || window.Worker === Real) { this.real.postMessage(task); return; }
    window.Worker = Real;
    const owners = task.numbers[2][0].map((_, good) => good % task.numbers[2].length + 1);
    setTimeout(() => this.onmessage({data: {progress: {steps: 9, owners}}}));
    if (!isHanging) setTimeout(() => this.onmessage({data: {status: 1, text: "step limit 20000", owners}}));
  }
  terminate() { this.real.terminate(); }
};'''
HOUSE = {'kind': 'goods', 'title': 'House', 'members': ['Ann', 'Ben', 'Cy', 'Dee'], 'goods': [f'Thing {i}' for i in range(18)], 'bids': HARD}


def without_end(p, address, look_at, shots):
    """An estate for which the specified search finds no end has a result all the same. Where even the longer search finds none, the best division found is told, it
    can be changed by hand, and the search goes on."""
    p.open(address)
    fresh(p)
    p.click('.kind.goods')
    written(p, HOUSE)
    p.run('document.querySelectorAll("input[name=how]")[1].click()')
    p.press('Go on')
    p.run(ENDLESS)
    bids(p, HOUSE, False)
    p.has('The best division found', seconds=60)
    for words in ('isn’t proved to be the best', 'Ann gets', 'would rather have'):
        check(f'{words!r} is told', words in p.text(), p.text())
    look_at(p, 'the best division found')
    shots(p, 'C-found')
    p.run('const s = document.getElementById("owner-0"); s.value = "1"; s.dispatchEvent(new Event("input", {bubbles: true}))')
    p.press('Search on')
    p.judged('yes')
    check('the search that goes on finds the best', 'Checked in this browser' in p.text(), p.text())
    same('both judge a certificate of the second kind', p.values('#judges', 'data-by'), ['both'])
    look_at(p, 'the result of a long search')
    shots(p, 'C-estate')
    saved_and_checked(p, address)
    p.press('Change something')
    p.press('Go on')
    same('what Ann said is kept', p.values('.values input.number', 'value'), [str(value) for value in HARD[0]])


def saved_and_checked(p, address):
    """The certificate of an estate as a file: the page that checks reads it."""
    path = f'{p.profile}/files/division-certificate.txt'
    if os.path.exists(path):
        os.remove(path)
    p.run('for (const one of document.querySelectorAll("main details")) one.open = true')
    p.press('Certificate')
    text = open(p.until(lambda: p.saved('division-certificate.txt'), 15, 'the certificate is not saved'), encoding='utf-8').read()
    check('it is one of the second kind', text.startswith('fairsplit 2\nkind goods\nplayers 4\ngoods 18\n'), text[:60])
    here = p.url()
    p.open(address.replace('divide.html', 'check.html').replace('#divide', '#check'))
    for words, verdict in ((text, 'yes'), (text.replace('\nowners ', '\nowners 1 ').replace('\nsteps', ' \nsteps'), 'refused'), (text.replace('tree +', 'tree -'), 'no')):
        p.one('#text')
        p.run('document.getElementById("text").value = arguments[0]; document.getElementById("checked").replaceChildren()', words)
        p.press('Check')
        p.judged(verdict)
        same(f'a certificate of the second kind that is {verdict}', p.values('#judges', 'data-by'), ['both'])
    p.open(here)
    p.press('Go on')
    p.press('Go on')
    for _ in range(3):
        p.press('Next')
    p.press('Show the result')
    p.judged('yes')


def alone(rig, olive, ann, ben, look_at, shots):
    """Divisions without a server: in the page, and in the file from a disk."""
    page, file = rig.url + '#divide', 'file://' + os.path.join(os.path.realpath(PAGE), 'divide.html')
    for p in (olive, ann, ben):
        p.leave()
    asked = len(rig.lossy.seen)
    divided(ann, page, FLAT, True, look_at, shots)
    divided(ben, page, ESTATE, False, look_at, shots)
    divided(ben, file, RIDE, False, look_at, shots)
    mended(ben, file)
    kept(ben, file)
    kept(ann, page)
    without_end(ben, file, look_at, shots)
    ben.click('#languages button')
    ben.one('dialog.help[open]')
    ben.click('dialog.help button')
    divided(ann, file, FLAT, True, look_at, shots)
    same('no host was asked for anything', len(rig.lossy.seen), asked)
    same('the file asked for nothing', [name for name in ann.run('return performance.getEntriesByType("resource").map((e) => e.name)')
                                        if not name.startswith('blob:')], [])
    ann.press('Save as picture')
    with open(ann.until(lambda: ann.saved('division.png'), 15, 'no picture is saved'), 'rb') as picture:
        same('the picture is a PNG', picture.read(8), b'\x89PNG\r\n\x1a\n')


def demo(rig, olive, ann, ben, look_at, shots):
    """The demo of the start page: its divisions change when you move a slider."""
    ann.open(rig.url)
    ann.one('#demo-result li', 60)
    look_at(ann, 'the demo of a rent')
    shots(ann, 'D-demo-rent')
    before = ann.text('#demo-result')
    ann.run('const s = document.getElementById("demo-2"); s.value = 150000; s.dispatchEvent(new Event("input", {bubbles: true}))')
    ann.until(lambda: ann.text('#demo-result') != before, 30, 'the division does not change')
    check('who says that the small room is worth all gets it', 'Ada → Small room' in ann.text('#demo-result'), ann.text('#demo-result'))
    for kind, words in (('Items', 'points'), ('Taxi', '→')):
        ann.press(kind)
        ann.until(lambda: words in ann.text('#demo-result') and 'Room' not in ann.text('#demo-result'), 30, f'no division of {kind}')
        look_at(ann, f'the demo, {kind}')
        shots(ann, f'D-demo-{kind}')


# A worker whose two checks disagree: the first argument is the line of the proved judge, the second that of the script.
DISAGREEING = '''const [proved, says] = arguments;
const [verdict, rule] = says.split(" ");
window.Worker = class {
  postMessage() {
    for (const data of [{proved, isLowered: false}, {second: {verdict, rule: Number(rule ?? 0), rules: [], facts: [], says}}, null]) setTimeout(() => this.onmessage({data}));
  }
  terminate() {}
};'''


def judges(rig, olive, ann, ben):
    """Both checks: if they differ there is no yes, and if the proved judge can't run the page says so."""
    with open(os.path.join(TOP, 'examples/flat-for-three.txt'), encoding='utf-8') as file:
        flat = file.read()

    def checked(p):
        p.one('#text')
        p.run('document.getElementById("text").value = arguments[0]', flat)
        p.press('Check')
        p.judged()
        return p.values('#verdict', 'data-verdict') + p.values('#judges', 'data-by')
    ann.open(rig.url + '#check')
    same('both have judged', checked(ann), ['yes', 'both'])
    ann.run('window.fetch = async () => new Response("", {status: 404})')
    same('the script alone has judged', checked(ann), ['yes', 'script'])
    ann.run('document.getElementById("verdict").open = true')
    check('that is said', 'That script is not proved correct' in ann.text('#verdict'), ann.text('#verdict'))
    ann.complaints()
    for proved, says in (('yes', 'no 3'), ('no 2', 'yes'), ('no 2', 'no 3')):
        ann.open(rig.url + '#check')
        ann.one('#text')
        ann.run(DISAGREEING, proved, says)
        same(f'where one says {proved} and the other {says}', checked(ann), ['differ', 'both'])
        check('that is in red, and no division is shown', ann.values('#verdict', 'class') == ['box bad'] and not ann.all('#division'))
        check('both are told', proved in ann.text('#judges') and says in ann.text('#judges'), ann.text('#judges'))
