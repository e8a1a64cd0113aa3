"""Rung (c) of .ci/page: whole rounds of the three kinds through the page, in real browsers against a real host behind nginx. What is shown is compared with
what the program writes of the same case.

rounds.py [--engine ENGINE] [--group GROUP] [--seconds N] [--shots FOLDER] [--picture] [PART..]

It plays the parts named, or those of the gate, in chromium, firefox or webkit; chromium if none is said. --group plays only one group of them: the gate
plays the groups of Chromium side by side. --shots puts pictures of each view into FOLDER, and --picture writes the README's anew. The gate plays all its
parts in Chromium, and in the two others those that tell most; any part can be played by name. Some of Chromium's need its own protocol: CHROMIUM_ONLY.
After so many seconds no part is begun any more: one for which no time was left counts as wrong.
"""
import argparse
import base64
import json
import math
import os
import random
import re
import signal
import ssl
import sys
import time
import traceback
import urllib.request
from concurrent.futures import ThreadPoolExecutor

import dividing
import keeping
import proving
import reading
import speaking
from driver import KEYS, Later
from engines import ENGINES, lacking
from rig import HERE, PAGE, Rig
from smaller import smaller
from tally import PROGRAM, TALLY, TOP, api, check, money, program, same, soon, tag
from tampering import copied, tampered_fares, tampered_goods, tampered_rent

PICTURE = os.path.join(TOP, 'docs/pictures/result.png')
with open(os.path.join(HERE, 'audit.js'), encoding='utf-8') as audit_file:
    AUDIT = audit_file.read()


# No colour depends on the width, and nothing that is seen on a desktop is hidden on a phone: so dark is audited at one width.
AUDITED = ((320, False, True), (320, True, False), (1200, False, False))


def look_at(p, what):
    """Audits a view at the widths of a small phone and of a desktop, light and dark, once all of it is there."""
    p.settled()
    for width, dark, spaced in AUDITED:
        p.look(dark)
        p.size(width, 844)
        faults, texts = p.run(AUDIT, width, spaced)
        TALLY.texts += texts
        check(f'{what} at {width}, {"dark" if dark else "light"}:', not faults, '; '.join(faults[:6]))
    p.look(False)
    p.size(*p.home)


def shots(p, what):
    """Takes pictures of a view, if they were asked for."""
    if not TALLY.shots:
        return
    p.settled()
    for name, width, dark in (('phone', 390, False), ('desk', 1200, False), ('phone-dark', 390, True), ('desk-dark', 1200, True)):
        p.look(dark)
        p.size(width, 844)
        time.sleep(0.2)
        p.shot(os.path.join(TALLY.shots, f'{what}-{name}.png'))
    p.look(False)
    p.size(*p.home)


def fill_form(rig, p, kind, title, people, things):
    p.open(rig.url + '#new-' + kind)
    p.put('#title', title)
    if kind != 'goods':
        p.put('#currency', 'EUR')
    for which, names in (('members', people), ('things', things)):
        for i, name in enumerate(names):
            if not p.all(f'#{which}-{i}'):
                p.click(f'#{which} button.add')
            p.put(f'#{which}-{i}', name)
        while p.all(f'#{which}-{len(names)}') and not (kind == 'rent' and which == 'things'):
            p.click(f'#{which} .item button', -1)


def links(p):
    p.one('#link-0')
    return dict(zip(p.values('[id^=link-]', 'id'), p.values('[id^=link-]', 'value')))


def bid(p, values):
    p.one('#value-0')
    for i, value in enumerate(values):
        p.put(f'#value-{i}', value)


def send(p, words='Send'):
    p.press(words)
    p.has('Your answer is saved.', '#message')


def turn_is(p, turn):
    """How often the member has bid, or taken a bid back."""
    p.until(lambda: p.values('#stands', 'data-turn') == [str(turn)], why=f'the turn is not {turn}: {p.text("#stands")!r}')


def wake(p):
    p.run('document.dispatchEvent(new Event("visibilitychange"))')


def close(p):
    wake(p)
    p.until(lambda: p.enabled('Show the result'), 60, 'close is not offered')
    p.press('Show the result')
    p.accept()
    p.one('#findings', 60)


UNFOLD = 'for (const one of document.querySelectorAll("main details:not(.menu)")) one.open = true'
# An attribute of each element that has it, by the places of the members whose elements these are.
BY_MEMBER = '''const [name, more] = arguments;
const all = [...document.querySelectorAll(`[data-${name}]`)].sort((a, b) => (a.dataset.member ?? 0) - (b.dataset.member ?? 0));
return all.map((e) => e.dataset[more ?? name])'''
ROOMS = '''const member = (room) => Number(room.querySelector(".price").dataset.member);
return [...document.querySelectorAll(".room")].sort((a, b) => member(a) - member(b)).map((room) => [room.querySelector(".holder bdi"), room.querySelector("b bdi")].map((e) => e.innerText).join(" → "))'''


def unfold(p):
    """Opens whatever is folded up."""
    p.run(UNFOLD)


def result_of(p):
    """Waits for a result, and unfolds all of it."""
    p.judged('yes')
    unfold(p)


def by_member(p, name, more=None):
    return p.run(BY_MEMBER, name, more)


def exacts(p, selector):
    return p.values(selector + ' [data-exact]', 'data-exact')


def heat(p, number):
    return p.run('return [...document.querySelectorAll("main table")[arguments[0]].querySelectorAll("tbody tr")].map((r) => [...r.querySelectorAll("td")].map((d) => d.dataset.exact))', number)


def envy_of(report):
    return [line.split(': ')[1].split() for line in report.splitlines() if line.startswith('envy')]


def rows_of(report, pattern):
    return [re.match(pattern, line).groups() for line in report.splitlines() if line[:1].isdigit()]


def files(p, name, wanted):
    """The files of a result must be what the program writes."""
    unfold(p)
    for button, what, text in wanted:
        p.press(button)
        try:
            path = p.until(lambda: p.saved(f'{name}-{what}.txt'), 15)
        except AssertionError:
            check(f'{name}-{what}.txt is downloaded', False)
            continue
        with open(path, encoding='utf-8') as file:
            same(f'the file {what}', file.read(), text)


def rent(rig, olive, ann, ben):
    """A rent: the form and its faults, lost replies, two windows, no reply for long, a poll that fails, the result."""
    lossy = rig.lossy
    people, rooms = ['Ann', 'Ben', 'Çağla'], ['Attic', 'Back room', 'Cellar']
    values = [[80000, 45050, 20000], [70000, 40000, 35050], [50000, 50000, 45050]]
    olive.open(rig.url)
    olive.one('.kinds')
    look_at(olive, 'the start')
    shots(olive, '1-start')
    olive.open(rig.url + '#new-rent')
    olive.one('#title')
    olive.press('Create the links')
    check('an empty form is not sent', 'need your attention' in olive.text() and not any(s[0].startswith('POST') for s in lossy.seen))
    check('the summary has the focus', olive.run('return document.activeElement.parentElement.id') == 'summary')
    check('the title says so', olive.run('return document.title').startswith('Error: Split the rent'))
    same('what it says of the title', olive.texts('#summary a')[0], 'What is it about? Enter a title.')
    olive.click('#summary a')
    same('a line of it leads to the field', olive.focused()['id'], 'title')
    fill_form(rig, olive, 'rent', 'Flat in Mill Road', people, rooms)
    for typed, faulty in (('1.4505', True), ('0', True), ('100000.01', True), ('9,5', False), ('100000', False), ('1450.50', False)):
        olive.put('#rent', typed)
        same(f'rent {typed} is faulty', bool(olive.text('#rent-fault')), faulty)
    for typed, faulty in (('x' * 41, True), ('é' * 21, True), ('é' * 20, False)):
        olive.put('#members-0', typed)
        same(f'a name of {len(typed.encode())} bytes is faulty', bool(olive.text('#members-0-fault')), faulty)
    olive.put('#members-0', 'Ben')
    olive.has('You have these twice')
    olive.put('#members-0', 'Ann')
    until = olive.values('#deadline', 'value')[0]
    olive.put('#deadline', '2020-01-01T12:00')
    check('a deadline that has passed is refused by the page', 'still to come' in olive.text('#deadline-fault'))
    olive.put('#rent', '100000.01')
    shots(olive, '2-form-rent')
    look_at(olive, 'the form of a rent')
    olive.put('#deadline', until)
    olive.put('#rent', '1450.50')
    lossy.lose = 2
    olive.press('Create the links')
    urls = links(olive)
    posts = [s for s in lossy.seen if s[0].startswith('POST /instances ')]
    check('two lost replies, so the same creation thrice, and once for the links', len(posts) == 4 and len({s[2] for s in posts[:3]}) == 1, str(len(posts)))
    same('links', len(urls), 4)
    same('the organiser is in the round', olive.text('.eyebrow'), 'You are the organiser.')
    check('the address is the organiser’s link, with the path of the host', olive.url() == urls['link-0'] and urls['link-1'].startswith(rig.url + '#'), urls['link-1'])
    olive.reload()
    same('after a reload the links are the same', links(olive), urls)
    shots(olive, '3-organiser')
    look_at(olive, 'the organiser’s page')

    ann.open(urls['link-1'])
    ann.one('#value-0')
    same('Ann', ann.text('h1'), 'Ann, what is each room worth to you?')
    ann.has('€1,450.50 of €1,450.50 left', '#values')
    bid(ann, ['800', '450.50', '300'])
    ann.press('Send')
    ann.has('€100.00 too much', '#message')
    ann.put('#value-2', '0')
    check('what was wrong is no longer told', not ann.text('#message'))
    ann.press('Share it out')
    same('the empty line gets the rest', ann.values('#value-2', 'value'), ['200.00'])
    ann.run('document.querySelector("input[type=range]").focus()')
    ann.keys([KEYS['right']])
    check('a slider moves by the keys', ann.values('#value-0', 'value') != ['800.00'])
    ann.press('Share it out')
    same('scaled', sum(round(float(v) * 100) for v in ann.values('.values input.number', 'value')), 145050)
    shots(ann, '4-bid-rent')
    look_at(ann, 'a bid on a rent')
    bid(ann, ['800', '450,5', '200'])
    lossy.lose = 1
    send(ann)
    turn_is(ann, 1)

    # the same member in two windows
    first = ann.ask('GET', '/window')
    ann.ask('POST', '/window', {'handle': ann.ask('POST', '/window/new', {'type': 'tab'})['handle']})
    ann.ask('POST', '/url', {'url': urls['link-1']})
    bid(ann, ['450.50', '800', '200'])
    ann.press('Send the change')
    turn_is(ann, 2)
    ann.ask('DELETE', '/window')
    ann.ask('POST', '/window', {'handle': first})
    bid(ann, ['800', '450.50', '200'])
    ann.press('Send the change')
    ann.has('changed elsewhere', '#message')
    turn_is(ann, 2)
    ann.press('Send the change')
    turn_is(ann, 3)
    ann.press('Take my answer back')
    ann.has('You took your answer back', '#stands')
    ann.press('Send')
    turn_is(ann, 5)

    # no reply for long: the bid waits and is sent again as it is
    ben.open(urls['link-2'])
    bid(ben, ['700', '400', '350.50'])
    lossy.refuse = 3
    ben.press('Send')
    ben.has('sending the same again is safe', '#message', 40)
    check('meanwhile nothing can be changed', not ben.run('return document.querySelector("#value-0").matches(":enabled")'))
    shots(ben, '5-no-reply')
    send(ben, 'Send the same again')
    turn_is(ben, 1)

    # the page says that a poll failed, until one succeeds
    lossy.deaf = True
    wake(olive)
    olive.has('isn’t answering just now', '.people')
    lossy.deaf = False
    wake(olive)
    olive.until(lambda: 'isn’t answering' not in olive.text('.people'), 60, 'that it does not answer is told though it answers')
    olive.has('2 of 3 have answered', '.people', 60)
    check('close is not offered', not olive.enabled('Show the result'))
    olive.has('Not yet: Çağla. Without an answer from everyone there is no result.', '.people')
    ben.open(urls['link-3'])
    bid(ben, ['500', '500', '450.50'])
    send(ben)
    ben.has('Everyone has answered', '.people')
    close(olive)

    case = json.dumps({'kind': 'rent', 'title': 'Flat in Mill Road', 'members': people, 'rooms': rooms, 'rent': 145050, 'bids': values})
    report = program('report 1', case)
    lines = rows_of(report, r'\d+ (.*): room (\d+) (.*), price (.*), pays (.*), utility (.*)$')
    for p, me in ((olive, None), (ann, 0), (ben, 2)):
        result_of(p)
        same('what each pays', [int(v) for v in by_member(p, 'pays')], [int(line[4]) for line in lines])
        same('the envy table', heat(p, 0), envy_of(report))
        same('the rooms', p.run(ROOMS), [f'{line[0]} → {line[2]}' for line in lines])
        same('verdict', p.values('#verdict', 'data-verdict'), ['yes'])
        if me is not None:
            same('mine', p.text('.hero h1'), f'You get {lines[me][2]} and pay {money(int(lines[me][4]))}')
            same('my utility', exacts(p, '#own'), [lines[me][5]])
            check('why that is well', 'you said it’s worth to you' in p.text('#own'), p.text('#own'))
            check('a bar a room, and none is longer than mine', len(p.all('.gain')) == 3 and 'No bar goes past the line' in p.text('.cols'), p.text('.cols'))
            same('the printed bid', p.text('#printed'), ' · '.join(money(v) for v in values[me]))
            check('it is as it was sent', 'what this browser saw when you sent your bid' in p.text('#verdict') or p is ben, p.text('#verdict'))
    same('after the close the organiser has the links', links(olive), urls)
    printed(olive, 'the organiser’s result')
    printed(ann, 'a result')
    shots(ann, '7-result-rent')
    look_at(ann, 'the result of a rent')
    files(ann, 'round-1', [('Report', 'report', report), ('Certificate', 'certificate', program('solve 1', case))])
    ann.press('Save the result')
    with open(ann.until(lambda: ann.saved('round-1.json'), 15, 'nothing is saved'), encoding='utf-8') as file:
        same('the saved file', json.load(file), {'fairsplit': 1, 'title': 'Flat in Mill Road', 'members': people, 'items': rooms, 'currency': 'EUR', 'certificate': program('solve 1', case)})
    if TALLY.picture:
        picture(ann)
    ann.speak('de')
    ann.has('Wer wo wohnt', seconds=60)
    same('the language of the page', ann.run('return document.documentElement.lang'), 'de')
    check('German sentences and numbers', 'Dein Zimmer: Attic. Du zahlst' in ann.text('.hero') and '733,00' in ann.text('.hero'), ann.text('.hero'))
    check('no sentence is missing', not re.search(r'\b(rent|goods|result|proof|check|facts|rules|files|names|differ)\.[a-z]', ann.text()))
    shots(ann, '7-result-rent-german')
    look_at(ann, 'the result in German')
    ann.speak('en')
    ann.has('Who lives where', seconds=60)


def printed(p, what):
    """What is printed fits on one sheet, without links, keys or buttons."""
    if p.run('return document.querySelectorAll("main details[open]").length'):
        p.reload()
        p.judged('yes')
    if not hasattr(p, 'cdp'):
        return
    sheet = base64.b64decode(p.cdp('Page.printToPDF', preferCSSPageSize=True)['data'])
    same(f'sheets of {what}', len(re.findall(rb'/Type\s*/Page[^s]', sheet)), 1)
    p.cdp('Emulation.setEmulatedMedia', media='print')
    seen = p.run('return document.body.innerText')
    same(f'buttons on {what}', p.run('return [...document.querySelectorAll("button, a, input")].filter((e) => e.checkVisibility()).map((e) => e.innerText)'), [])
    check(f'no key on {what}', not re.search(r'[0-9a-f]{20}', seen), seen)
    p.cdp('Emulation.setEmulatedMedia', media='')
    p.look(False)


HEAD_OF_A_RESULT = '''document.querySelectorAll("footer, header.site, .fold, .after, .cols > section + section, .cols .hint").forEach((e) => { e.style.display = "none"; });
document.querySelectorAll("main details").forEach((e) => { e.open = false; });
const main = document.querySelector("main");
main.style.flex = "none";
main.style.minHeight = 0;
main.style.paddingTop = "1px";
main.style.paddingBottom = 0;'''


def picture(p):
    """The README's picture: the head of a result, in a small window."""
    p.size(576, 900)
    p.run(HEAD_OF_A_RESULT)
    time.sleep(0.3)
    p.shot(PICTURE, 'main')
    smaller(PICTURE)
    p.reload()
    p.size(*p.home)
    result_of(p)


def goods(rig, olive, ann, ben):
    """Goods: names that are markup, a creation that gets no answer, sliders in steps, what the page says beforehand."""
    people, things = ['Ada <b>&amp;', 'Bo\u202eoB', 'Cleo 🌻'], ['Piano', 'Clock', '<img src=x onerror=alert(1)>', 'Ring', 'Paintings']
    values = [[400, 100, 250, 150, 100], [100, 150, 450, 100, 200], [250, 100, 300, 300, 50]]
    fill_form(rig, olive, 'goods', 'House of Ida', people, things)
    shots(olive, '2-form-goods')
    look_at(olive, 'the form of goods')
    rig.lossy.refuse = 3
    olive.press('Create the links')
    olive.has('sending the same again is safe', seconds=40)
    olive.reload()
    olive.has('was sent, and no answer came')
    before = len(rig.lossy.seen)
    olive.press('Send the same again')
    urls = links(olive)
    check('one creation', len({s[2] for s in rig.lossy.seen[before:] if s[0].startswith('POST /instances ')}) <= 2)
    for p, i in ((ann, 0), (ben, 1), (ben, 2)):
        p.open(urls[f'link-{i + 1}'])
        p.one('#value-0')
        if i == 0:
            same('sliders go in tens', set(p.values('input[type=range]', 'step')), {'10'})
            bid(p, ['450', '130', '240', '130', '100'])
            p.has('50 points too much', '#values')
            p.press('Share it out')
            same('scaled to tens', [int(v) % 10 for v in p.values('.values input.number', 'value')], [0] * 5)
            p.put('#value-0', '4.5')
            p.has('Enter a whole number', '#value-0-fault')
            shots(p, '4-bid-goods')
            look_at(p, 'a bid on goods')
        bid(p, [str(v) for v in values[i]])
        send(p)
    check('names are no markup', not any(q.run('return document.querySelectorAll("bdi *, main img, [onerror]").length') for q in (olive, ann, ben)))
    olive.reload()
    links(olive)
    close(olive)
    case = json.dumps({'kind': 'goods', 'title': 'House of Ida', 'members': people, 'goods': things, 'limit': 200000, 'bids': values})
    report = program('report 1', case)
    points = [int(v) for v in re.findall(r'points (\d+)$', report, re.M)]
    for p in (olive, ann):
        p.reload() if p is ann else None
        result_of(p)
        same('points', [int(v) for v in by_member(p, 'points')], points)
        same('the envy table', heat(p, 0), envy_of(report))
        same('verdict', p.values('#verdict', 'data-verdict'), ['yes'])
        check('audit lines', 'nobody envies anyone' in p.text('#audit') and 'Pareto' in p.text('#audit'), p.text('#audit'))
    shots(ann, '7-result-goods')
    look_at(ann, 'the result of goods')
    name = 'round-' + re.search(r'#(\d+)\.', urls['link-0'])[1]
    files(ann, name, [('Report', 'report', report), ('Certificate', 'certificate', program('solve 1', case))])


def heirs(rig, olive, ann, ben):
    """Goods for two, whose deadline passes while someone is looking; a result with envy; and goods whose search by the server doesn't end."""
    things, values = ['Desk', 'Lamp', 'Chair'], [[700, 200, 100], [800, 150, 50]]
    ann.open(rig.url)  # a browser that only starts now would take of the time that is left
    made = api(rig, 'instances', body={'kind': 'goods', 'title': 'Attic', 'members': ['Ann', 'Ben', 'Dan'], 'goods': things, 'deadline': soon(40), 'tag': tag()})
    for i in (0, 1):
        api(rig, f'instances/{made["id"]}/bids', made['keys'][i], {'turn': 1, 'values': values[i]})
    ann.open(f'{rig.url}#{made["id"]}.{made["keys"][0]}')
    ann.has('have answered')
    two_without_end(rig, olive)
    result_of(ann)  # nobody reloads: the page notes the deadline
    case = json.dumps({'kind': 'goods', 'title': 'Attic', 'members': ['Ann', 'Ben', 'Dan'], 'goods': things, 'bids': values + [None]})
    report, winner = program('report 1', case), program('winner', case)
    same('points', [int(v) for v in by_member(ann, 'points')], [int(v) for v in re.findall(r'points (\d+)$', report, re.M)])
    check('whoever took no part is named first, in amber', ann.text('.hero').startswith('No answer came from Dan in time') and ann.all('.hero.caution'), ann.text('.hero'))
    check('that one item is enough is told', 'were taken out of it' in ann.text('#audit'), ann.text('#audit'))
    same('shares of adjusted winner', exacts(ann, '#winner table')[0::2], re.search(r'^shares (.*)$', winner, re.M)[1].split())
    shots(ann, '7-result-two')
    look_at(ann, 'the result for two')
    files(ann, f'round-{made["id"]}', [('Adjusted winner', 'winner', winner)])


def two_without_end(rig, p):
    """Goods for two, whose search by the server doesn't end: a member sees that one item can be split, and takes the result from the organiser."""
    many = {'kind': 'goods', 'title': 'Many', 'members': ['Ann', 'Ben'], 'goods': [f'Thing {i}' for i in range(8)], 'limit': 40, 'deadline': '2126-01-01T00:00:00Z', 'tag': tag()}
    endless = api(rig, 'instances', body=many)
    for key in endless['keys']:
        api(rig, f'instances/{endless["id"]}/bids', key, {'turn': 1, 'values': [125] * 8})
    api(rig, f'instances/{endless["id"]}/close', endless['organiser'], {})
    p.open(f'{rig.url}#{endless["id"]}.{endless["keys"][0]}')
    p.has('after 40 steps')
    check('what is left is told', all(words in p.text() for words in ('Splitting one item', 'The organiser’s device can finish it')), p.text())
    same('adjusted winner', exacts(p, '#winner')[0:1] != [], True)
    winner = program('winner', json.dumps({**many, 'bids': [[125] * 8] * 2}))
    same('shares', exacts(p, '#winner table')[0::2], re.search(r'^shares (.*)$', winner, re.M)[1].split())
    shots(p, '8-no-answer')
    look_at(p, 'goods without an answer')


def fares(rig, olive, ann, ben):
    """A shared ride."""
    people, places = ['Ann', 'Ben', 'Cy', 'Dee'], ['Mill', 'Bridge', 'Church']
    legs = [[700, 900, 1200], [0, 350, 650], [350, 0, 450], [650, 450, 0]]
    at = [1, 3, 2, 3]
    fill_form(rig, olive, 'fares', 'Night ride', people, places)
    olive.put('#flag', '4')
    for f, row in enumerate(legs):
        for to, leg in enumerate(row):
            if f == 0 or to + 1 > f:
                olive.put(f'#legs-{f}-{to}', f'{leg / 100:.2f}')
    same('the way back is as the way there', olive.values('#legs-3-0', 'value'), ['6.50'])
    olive.put('#legs-0-2', 'far')
    olive.has('From the start to Church', '#legs-fault')
    shots(olive, '2-form-fares')
    look_at(olive, 'the form of fares')
    olive.put('#legs-0-2', '12')
    olive.press('Create the links')
    urls = links(olive)
    for p, i in ((ann, 0), (ben, 1), (ann, 2), (ben, 3)):
        p.open(urls[f'link-{i + 1}'])
        p.one('.place input')
        if i == 0:
            p.press('Send')
            p.has('Pick the place', '#place-fault')
        p.click('.place', at[i] - 1)
        if i == 0:
            same('what was wrong is told no longer', p.text('#place-fault'), '')
            shots(p, '4-bid-fares')
            look_at(p, 'a bid on fares')
        send(p)
        p.has(f'You get off at {places[at[i] - 1]}.', '#stands')
    olive.reload()
    links(olive)
    close(olive)
    case = json.dumps({'kind': 'fares', 'title': 'Night ride', 'members': people, 'places': places, 'flag': 400, 'legs': legs, 'bids': at})
    report = program('report 1', case)
    lines = rows_of(report, r'\d+ (.*): place (\d+) (.*), fare (.*), pays (.*), alone (.*)$')
    for p in (olive, ann, ben):
        p.reload()
        result_of(p)
        same('fares', list(zip(by_member(p, 'pays', 'exact'), by_member(p, 'pays'))), [(line[3], line[4]) for line in lines])
        same('total', p.values('[data-total]', 'data-total'), [re.search(r'total (\d+)', report)[1]])
        same('route', [name.split()[1] for name in p.values('.route .offs .who', 'class')], [f'p{m}' for m in re.search(r'route (.*)', report)[1].split()])
        same('verdict', p.values('#verdict', 'data-verdict'), ['yes'])
        check('alone', all(money(int(line[5])) in text for line, text in zip(lines, p.texts('.pays li'))))
    ben.put('#meter', '30')
    ben.press('Adjust')
    same('what the meter said is shared', sum(int(v) for v in ben.values('[data-metered]', 'data-metered')), 3000)
    same('mine', ben.text('.hero h1'), f'You get off at Church and pay {money(int(lines[3][4]))}')
    shots(ben, '7-result-fares')
    look_at(ben, 'the result of fares')
    name = 'round-' + re.search(r'#(\d+)\.', urls['link-0'])[1]
    files(ben, name, [('Report', 'report', report), ('Certificate', 'certificate', program('solve 1', case))])


def refusals(rig, olive, ann, ben):
    """What is refused, and broken links."""
    gone = {'kind': 'rent', 'title': 'Void', 'members': ['Ann', 'Ben'], 'rooms': ['A', 'B'], 'rent': 900, 'deadline': '1999-01-01T00:00:00Z', 'tag': tag()}
    made = api(rig, 'instances', body=gone)
    olive.open(f'{rig.url}#{made["id"]}.{made["organiser"]}')
    olive.has('This server says: Ann and Ben hadn’t answered when it closed')
    shots(olive, '8-void')
    look_at(olive, 'a void round')
    olive.press('Make a new one')
    olive.one('#members-0')
    same('the people are there again', [olive.values(f, 'value')[0] for f in ('#members-0', '#things-1', '#rent')], ['Ann', 'B', '9.00'])
    for link, words in ((f'#{made["id"]}.{"0" * 64}', 'opens nothing in this round'), (f'#99999.{"0" * 64}', 'There is no such round'), (f'#1.{"0" * 63}', 'This link is incomplete')):
        ben.open(rig.url + link)
        ben.has(words)
        check('the way out is told', 'Ask the person who sent it' in ben.text())
    look_at(ben, 'a broken link')
    made = api(rig, 'instances', body={**gone, 'deadline': '2126-01-01T00:00:00Z', 'tag': tag()})
    for turn in range(1, 20):
        api(rig, f'instances/{made["id"]}/bids', made['keys'][0], {'turn': turn, 'values': [turn, 900 - turn]})
    ann.open(f'{rig.url}#{made["id"]}.{made["keys"][0]}')
    ann.has('1 more time', '#stands')
    ann.press('Take my answer back')
    check('the last turn is asked for', 'the last time' in ann.ask('GET', '/alert/text'))
    ann.ask('POST', '/alert/dismiss')
    ann.press('Send the change')
    ann.has('can’t change anything any more', '#stands')
    check('then nothing can be sent', not ann.enabled('Send the change'))
    check('nor is a change promised', 'You can change it' not in ann.text('#message'), ann.text('#message'))
    # a host that is stricter than the page
    for field, where in (('rent', '#rent-fault'), ('members', '#members-fault'), ('rooms', '#things-fault'), ('deadline', '#deadline-fault'), ('title', '#title-fault'), ('', '.box.bad')):
        fill_form(rig, olive, 'rent', 'Strict', ['Ann', 'Ben'], ['A', 'B'])
        olive.put('#rent', '9')
        code, body = (422, json.dumps({'code': 'bad_field', 'field': field})) if field else (403, '{"code":"not_allowed"}')
        olive.run('const [code, body] = arguments; const old = window.fetch; window.fetch = async () => { window.fetch = old; return new Response(body, {status: code}); }', code, body)
        olive.press('Create the links')
        olive.until(lambda: olive.text(where), 10, field)
        check(f'a refusal of {field or "the server"} is shown', 'server' in olive.text(where), olive.text(where))


ROOM = 1000  # the rounds that a host has room for


def room(rig, olive, ann, ben):
    """A host that is full: the page creates the round on another host of the same name, and all its links lead there."""
    with ThreadPoolExecutor(8) as many:
        flat = {'kind': 'rent', 'title': 'Flat', 'members': ['Ann', 'Ben'], 'rooms': ['A', 'B'], 'rent': 900, 'deadline': soon(86400)}
        list(many.map(lambda _: api(rig, rig.next_url + 'instances', body={**flat, 'tag': tag()}), range(ROOM)))
    ben.open(rig.next_url)
    ben.speak('de')
    ben.has('Was wollt ihr aufteilen?')
    ben.open(rig.next_url + '#new-rent')
    ben.one('#title')
    for at, value in {'title': 'WG', 'members-0': 'Änne', 'members-1': 'Jörg', 'things-0': 'A', 'things-1': 'B', 'rent': '9'}.items():
        ben.put(f'#{at}', value)
    ben.press('Links erstellen')
    urls = links(ben)
    check('a full host leads to the other, and so do the links', ben.url().startswith(rig.url + '#') and all(url.startswith(rig.url + '#') for url in urls.values()), str(urls))
    ben.has('Schick jeder Person ihren Link')
    ann.open(urls['link-1'])
    ann.one('#value-0')
    same('the member of the other host', ann.text('h1'), 'Änne, what is each room worth to you?')
    ben.speak('en')
    ben.has('Send each person their link')


def keys_alone(rig, olive, ann, ben):
    """A whole round with the keyboard only: created, bid on by both, closed, and its result saved. What was typed stays when the language changes."""
    p = ann

    def tab_to(test, most=60):
        for _ in range(most):
            p.keys([KEYS['tab']])
            now = p.focused()
            check('the focus is seen', now['seen'] or now['tag'] == 'BODY', str(now))
            if test(now):
                return
        raise AssertionError('no such stop')

    def fill(pairs):
        for id_, words in pairs:
            tab_to(lambda e: e['id'] == id_)
            p.keys(list(words))

    def press(words, send=p.keys):
        tab_to(lambda e: e['text'].startswith(words))
        send([KEYS['enter']])
    p.open(rig.url)
    p.one('.kinds')
    tab_to(lambda e: 'new-goods' in e['href'])
    p.keys([KEYS['enter']])
    p.one('#title')
    same('the focus goes to the heading', p.focused()['tag'], 'H1')
    fill((('title', 'By keys'), ('members-0', 'Ann'), ('members-1', 'Ben'), ('things-0', 'Desk'), ('things-1', 'Lamp'), ('things-2', 'Chair')))
    p.speak('de')
    p.has('Links erstellen')
    same('what was typed is there in the other language', [p.values(f, 'value')[0] for f in ('#title', '#members-1', '#things-2')], ['By keys', 'Ben', 'Chair'])
    p.speak('en')
    p.has('Create the links')
    press('Create the links')
    urls = links(p)
    for link in ('link-1', 'link-2'):
        p.open(urls[link])
        p.one('#value-0')
        fill((('value-0', '600'), ('value-1', '400')))
        p.speak('de')
        p.has('Wer sieht das?')
        same('a bid that was typed is there in the other language', p.values('.values input.number', 'value')[:2], ['600', '400'])
        p.speak('en')
        p.has('Who sees this?')
        press('Send')
        p.has('Your answer is saved.', '#message')
        p.until(lambda: 'Your answer is saved' in p.run('return document.getElementById("live").textContent'), 5, 'it is not spoken')
    p.open(urls['link-0'])
    p.until(lambda: p.enabled('Show the result'), 60, 'close is not offered')
    press('Show the result', p.keys_that_ask)
    p.judged('yes')
    same('and then the focus is at the heading', p.focused()['tag'], 'H1')
    press('Checked in this browser')
    press('Certificate')
    p.until(lambda: p.saved(f'round-{urls["link-0"].split("#")[1].split(".")[0]}-certificate.txt'), 15, 'the certificate is not saved by keys')


def checker(rig, olive, ann, ben):
    """The view that checks, and the file that people can save, opened from the disk."""
    cleared = 'document.getElementById("text").value = arguments[0]; document.getElementById("checked").replaceChildren()'
    with open(os.path.join(TOP, 'examples/flat-for-three.txt'), encoding='utf-8') as file:
        flat = file.read()
    heirs_text = open(os.path.join(TOP, 'examples/three-heirs.txt'), encoding='utf-8').read()
    taxi = open(os.path.join(TOP, 'examples/taxi-for-two.txt'), encoding='utf-8').read()
    texts = [flat, flat.replace('prices 700', 'prices 2101/3'), heirs_text.replace('owners 1 3 2 3 2', 'owners 1 3 2 2 3'), taxi.replace('fares 750 1250', 'fares 700 1300')]
    for address in (rig.url + '#check', 'file://' + os.path.join(os.path.realpath(PAGE), 'check.html')):
        ben.open(address)
        ben.one('#text')
        for text in texts:
            verdict = program('check', text).split()
            rule = verdict[1] if len(verdict) > 1 else '0'
            ben.run(cleared, text)
            ben.press('Check')
            ben.judged()
            same(f'{address[:5]} the verdict', [ben.values('#verdict', 'data-verdict')[0], ben.values('#verdict', 'data-rule')[0]], [verdict[0], rule])
        look_at(ben, 'the view that checks')
        shots(ben, '9-check' if address.startswith('http') else '9-check-file')
    shown_names(ben, flat, cleared)
    ben.click('#languages button')
    ben.one('dialog.help[open]')
    ben.click('dialog.help button')
    ben.speak('de')
    ben.has('Ein Zertifikat prüfen')
    ben.speak('en')
    ben.has('Check a certificate')
    same('the file asked for nothing', ben.run('return performance.getEntriesByType("resource").length'), 0)


def shown_names(p, flat, cleared):
    """The check shows the division, with names that someone types or with those of a saved file."""
    def checked(text):
        p.run(cleared, text)
        p.press('Check')
        p.until(lambda: p.enabled('Check') and p.text('#checked'), 10)
    checked(f'\n\n{flat}\n \n')
    same('blank lines are forgiven', p.values('#verdict', 'data-verdict'), ['yes'])
    same('what each pays', p.texts('#division [data-pays]'), ['7.00', '1.00', '1.00'])
    p.click('#names summary')
    p.put('#names input', 'Zoë')
    check('a name that is typed', 'Zoë' in p.text('#division') and 'Housemate 2' in p.text('#division'), p.text('#division'))
    look_at(p, 'the check with typed names')
    shots(p, '9-check-typed')
    checked(json.dumps({'fairsplit': 1, 'title': 'Flat', 'members': ['Ann', 'Ben', 'Cy'], 'items': ['Attic', 'Back', 'Cellar'], 'currency': 'EUR', 'certificate': flat, 'more': 1}))
    same('the names of a saved file', p.run(ROOMS), ['Ann → Attic', 'Ben → Back', 'Cy → Cellar'])
    same('its currency', p.texts('#division [data-pays]'), ['€7.00', '€1.00', '€1.00'])
    look_at(p, 'the check with a saved file')
    shots(p, '9-check-saved')
    checked(json.dumps({'fairsplit': 1, 'title': 'Flat', 'members': ['Ann'], 'items': ['Attic', 'Back', 'Cellar'], 'certificate': flat}))
    check('a file with too few names', 'This file isn’t from fairsplit' in p.text('#checked') and not p.all('#verdict'), p.text('#checked'))


def divided(rig, olive, ann, ben):
    """Divisions without a server, and their picture."""
    dividing.alone(rig, olive, ann, ben, look_at, shots)


def demo(rig, olive, ann, ben):
    """The demo of the start page."""
    dividing.demo(rig, olive, ann, ben, look_at, shots)


def policy(rig, olive, ann, ben):
    """The policy, the logs, and what a browser loads."""
    with urllib.request.urlopen(rig.url, context=ssl._create_unverified_context()) as reply:
        found = reply.headers['Content-Security-Policy']
    check('a strict policy', found and 'unsafe' not in found.replace("'wasm-unsafe-eval'", '') and found.startswith("default-src 'none'"), found)
    ann.complaints()
    ann.open(rig.url)
    ann.one('.kinds')
    tried = ann.run('''
      const out = [];
      try { document.body.insertAdjacentHTML('beforeend', '<i>x</i>'); out.push('markup'); } catch { }
      const d = document.createElement('div'); d.setAttribute('style', 'color: rgb(1, 2, 3)'); document.body.append(d); if (getComputedStyle(d).color === 'rgb(1, 2, 3)') out.push('style');
      return out;''')
    same('neither parsed markup nor a style in line is let through', tried, [])
    ann.complaints()
    same('no cookies', ann.run('return document.cookie'), '')
    log = rig.log()
    check('no key in the log of nginx', log and not re.search(r'[0-9a-f]{64}', log))
    check('no key in a request line', not any(re.search(r'[0-9a-f]{64}', first) for first, _, _ in rig.lossy.seen))
    check('keys in a header', any(re.search(r'(?i)x-key: [0-9a-f]{64}', head) for _, head, _ in rig.lossy.seen))


def greatest(rig, olive, ann, ben):
    """The greatest sizes, with long names."""
    draw = random.Random(11)

    def spread(n, whole):
        cuts = sorted(draw.randint(0, whole) for _ in range(n - 1))
        return [b - a for a, b in zip([0] + cuts, cuts + [whole])]
    twelve = [f'Housemate {"long name " * 2}{i:>10}' for i in range(12)]
    rooms = ['R' * 40] + [f'Room {i}' for i in range(11)]
    places = [f'Place{"x" * (3 * i)}' for i in range(12)]
    legs = [[0 if f == to + 1 else draw.randint(0, 1000000) for to in range(12)] for f in range(13)]
    cases = [{'kind': 'rent', 'title': 'T' * 40, 'members': twelve, 'rooms': rooms, 'rent': 10000000, 'bids': [spread(12, 10000000) for _ in range(12)]},
             {'kind': 'fares', 'title': 'Ten', 'members': [f'Rider {i}' for i in range(10)], 'places': places, 'flag': 1000000, 'legs': legs, 'bids': [draw.randint(1, 12) for _ in range(10)]}]
    for case in cases:
        made = api(rig, 'instances', body={**{k: v for k, v in case.items() if k != 'bids'}, 'deadline': '2126-01-01T00:00:00Z', 'tag': tag()})
        link = f'{rig.url}#{made["id"]}.{made["keys"][0]}.CHF'
        ann.open(link)
        ann.one('#value-11' if case['kind'] == 'rent' else '.place')
        look_at(ann, f'the greatest bid, {case["kind"]}')
        for key, value in zip(made['keys'], case['bids']):
            api(rig, f'instances/{made["id"]}/bids', key, {'turn': 1, **({'values': value} if case['kind'] == 'rent' else {'place': value})})
        api(rig, f'instances/{made["id"]}/close', made['organiser'], {})
        ann.open(link)
        result_of(ann)
        check('all holds', 'The numbers are right' in ann.text('#verdict'), ann.text('#findings'))
        report = program('report 1', json.dumps(case))
        same('pays', by_member(ann, 'pays'), re.findall(r', pays (-?\d+),', report))
        if case['kind'] == 'rent':
            same('the envy table', heat(ann, 0), envy_of(report))
        else:
            same('fares', by_member(ann, 'pays', 'exact'), re.findall(r', fare (\S+),', report))
        look_at(ann, f'the greatest result, {case["kind"]}')
        shots(ann, f'A-greatest-{case["kind"]}')


BROKEN = 'return [...document.querySelectorAll(arguments[0])].filter((e) => e.getClientRects().length !== 1).map((e) => e.innerText)'


def german(rig, olive, ann, ben):
    """A browser that wants German gets it, and long words fit."""
    hanna = rig.engine.browser(True, 'de-DE')
    try:
        hanna.open(rig.url)
        hanna.has('Was wollt ihr aufteilen?')
        look_at(hanna, 'the start in German')
        for kind, things in (('rent', ['Dachkammer', 'Arbeitszimmer']), ('goods', ['Donaudampfschifffahrtskapitänsmütze', 'Uhr']), ('fares', ['Hauptbahnhof', 'Mühlstraße'])):
            fill_form(rig, hanna, kind, 'WG Mühlstraße', ['Änne', 'Jörg'], things)
            hanna.put('#deadline', '')
            hanna.press('Links erstellen')
            hanna.has('zu berichtigen')
            look_at(hanna, f'the form of {kind} in German')
            shots(hanna, f'B-form-{kind}-german')
        creation = {'kind': 'rent', 'title': 'WG Mühlstraße', 'members': ['Änne', 'Jörg'], 'rooms': ['Dachkammer', 'Arbeitszimmer'], 'rent': 123456, 'deadline': soon(86400), 'tag': tag()}
        made = api(rig, 'instances', body=creation)
        hanna.open(f'{rig.url}#{made["id"]}.{made["organiser"]}.EUR.{creation["tag"]}')
        for code, words in (('fr', 'C’est moi'), ('pl', 'To ja'), ('de', 'Das bin ich')):
            hanna.one('.me')
            hanna.speak(code)
            hanna.until(lambda: words in hanna.run('return document.querySelector(".me")?.textContent ?? ""'), 30, f'no menu in {code}')
            hanna.run('document.querySelector(".menu").open = true')
            same(f'links that break in the middle, in {code}', hanna.run(BROKEN, '.menu[open] .me'), [])
        hanna.open(f'{rig.url}#{made["id"]}.{made["keys"][0]}.EUR')
        hanna.has('1.234,56')
        bid(hanna, ['1234,56', '0'])
        hanna.press('Senden')
        hanna.has('Deine Antwort ist gespeichert.', '#message')
        look_at(hanna, 'a bid in German')
        same('the bid', api(rig, f'instances/{made["id"]}/bid', made['keys'][0])['values'], [123456, 0])
        same('complaints of the browser of the German', hanna.complaints(), [])
    finally:
        hanna.end()


# The parts of the gate in Chromium, in groups that take about as long as each other.
GROUPS = {
    'rounds': [rent, goods, fares, heirs, refusals, keys_alone, checker, dividing.judges, policy, german, proving.modules],
    'lies': [tampered_rent, tampered_goods, tampered_fares, copied, divided, demo],
    'people': [*reading.READING, *speaking.SPEAKING, *keeping.KEEPING],
}
OF_THE_GATE = sum(GROUPS.values(), [])
PARTS = OF_THE_GATE + [room, greatest, proving.many_modules, keeping.slow_network]
# In Firefox and in WebKit: a round of goods by keys, divisions without a server from a disk too, the policy, and the proved modules under it.
OF_THE_OTHERS = [keys_alone, divided, demo, german, policy, proving.modules, reading.read_aloud]
CHROMIUM_ONLY = [copied, keeping.unanswered, keeping.slow_network]


def chosen(asked):
    """The parts that are named, those of a group, or those of the gate in this engine."""
    if asked.parts:
        return [part for part in PARTS if part.__name__ in asked.parts]
    if asked.group:
        return GROUPS[asked.group]
    return OF_THE_GATE if asked.engine == 'chromium' else OF_THE_OTHERS


def play_part(rig, people, part, is_timed):
    """Plays a part. If it breaks off, the next one goes on."""
    at = time.time()
    try:
        part(rig, *people)
    except Exception:
        check(f'{part.__name__} broke off:', False, traceback.format_exc()[-1500:])
        if TALLY.shots:
            for p, who in zip(people, ('olive', 'ann', 'ben')):
                p.shot(os.path.join(TALLY.shots, f'fault-{part.__name__}-{who}.png'))
    if is_timed:
        print(f'page: {part.__name__} took {time.time() - at:.0f} seconds', flush=True)


def play(asked):
    """Plays what was asked for. Gives the parts for which no time was left."""
    began = time.time()
    rig, people, left = Rig(PROGRAM), [], []
    rig.engine = None
    try:
        rig.engine = ENGINES[asked.engine]()
        people += [Later(lambda phone=phone: rig.engine.browser(phone)) for phone in (False, True, False)]
        for part in chosen(asked):
            if time.time() - began > asked.seconds:
                left.append(part.__name__)
            else:
                play_part(rig, people, part, TALLY.shots or asked.parts)
        for p, who in zip(people, ('organiser', 'phone', 'desk')):
            same(f'complaints of the browser of the {who}', p.browser and p.complaints(), p.browser and [])
        return left, len(rig.lossy.seen), time.time() - began
    finally:
        for opened in [*people, *filter(None, [rig.engine]), rig]:
            opened.end()


def arguments():
    """What was asked for."""
    parser = argparse.ArgumentParser(description='Plays parts of rung (c) of .ci/page.')
    parser.add_argument('--engine', choices=ENGINES, default='chromium')
    parser.add_argument('--group', choices=GROUPS, help='play only these parts of the gate in Chromium')
    parser.add_argument('--seconds', metavar='N', type=float, default=math.inf, help='after so long no part is begun any more')
    parser.add_argument('--shots', metavar='FOLDER', help='where pictures of each view go')
    parser.add_argument('--picture', action='store_true', help="write the README's picture anew")
    parser.add_argument('parts', nargs='*', metavar='PART')
    asked = parser.parse_args()
    unknown = set(asked.parts) - {part.__name__ for part in PARTS}
    if unknown:
        parser.error(f'no part {", ".join(sorted(unknown))}')
    only = [part.__name__ for part in CHROMIUM_ONLY if part.__name__ in asked.parts]
    if asked.engine != 'chromium' and only:
        parser.error(f'only in chromium: {", ".join(only)}')
    if lacking(asked.engine):
        parser.error(f'{asked.engine} lacks {", ".join(lacking(asked.engine))}')
    return asked


def main():
    asked = arguments()
    TALLY.picture, TALLY.shots = asked.picture, asked.shots
    if TALLY.shots:
        os.makedirs(TALLY.shots, exist_ok=True)
    signal.signal(signal.SIGTERM, lambda *_: sys.exit(1))  # so that what was started is ended
    left, requests, seconds = play(asked)
    late = f'; no time was left for {", ".join(left)}' if left else ''
    print(f'{asked.group or "rounds"} in {ENGINES[asked.engine].name}: {TALLY.right} right, {TALLY.wrong} wrong, contrast of {TALLY.texts} texts, {requests} requests, '
          f'{seconds:.0f} seconds{"".join(f"; {told}" for told in TALLY.told)}{late}')
    sys.exit(TALLY.wrong > 0 or bool(left))


if __name__ == '__main__':
    main()
