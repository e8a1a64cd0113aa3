"""Parts of rung (c): nobody loses what they typed, their links or their bids, and nobody is misled if no answer comes."""
import os
import re
import shutil
import subprocess
import time

from tally import TALLY, api, check, same, soon, tag

KEPT = 'return Object.keys(localStorage).concat(Object.keys(sessionStorage)).filter((key) => !/language|borrowed/.test(key))'
ITEMS = [f'Thing {i}' for i in range(8)]


def rent_round(rig, people=('Ann', 'Ben'), end=86400):
    """Creates a rent without the page. Gives the reply, and the links of organiser and members."""
    creation = {'kind': 'rent', 'title': 'Flat', 'members': list(people), 'rooms': ['A', 'B'], 'rent': 90000, 'deadline': soon(end), 'tag': tag()}
    made = api(rig, 'instances', body=creation)
    return made, f'{rig.url}#{made["id"]}.{made["organiser"]}.EUR.{creation["tag"]}', [f'{rig.url}#{made["id"]}.{key}.EUR' for key in made['keys']]


def typed(p, values):
    p.one('#value-0')
    for i, value in enumerate(values):
        p.put(f'#value-{i}', value)


def look(p, what, look_at, shots):
    look_at(p, what)
    shots(p, what.replace(' ', '-'))


def remembered(rig, olive, ann, ben):
    """The rounds that a browser remembers, and a device that isn't one's own."""
    from rounds import links, look_at, shots
    olive.open(rig.url)
    olive.click('.kind.rent')
    for at, value in {'title': 'Kept flat', 'members-0': 'Ann', 'members-1': 'Ben', 'things-0': 'A', 'things-1': 'B', 'rent': '9'}.items():
        olive.put(f'#{at}', value)
    olive.press('Create the links')
    urls = links(olive)
    same('the title of the organiser', olive.run('return document.title'), 'Kept flat: organiser – Fair split')
    olive.run('history.back()')
    olive.has('On this device')
    check('the page says that the key is in it', 'holds its link, and so its key' in olive.text())
    look(olive, 'rounds that are kept', look_at, shots)
    olive.run('history.forward()')
    olive.has('Send each person their link')
    olive.open(rig.url)
    olive.click('.kept a[href="#' + urls['link-0'].split('#')[1] + '"]')
    olive.has('Send each person their link')
    same('the list leads to the organiser’s page', olive.url(), urls['link-0'])
    ann.open(urls['link-1'])
    same('the title of a member', ann.until(lambda: 'Ann' in ann.run('return document.title') and ann.run('return document.title')), 'Kept flat: Ann – Fair split')
    typed(ann, ['5', '4'])
    ann.one('.remember input')
    ann.press('Send')
    ann.has('Your answer is saved', '#message')
    ann.open(rig.url)
    ann.has('You are Ann', '.kept')
    rounds = lambda p: [key for key in p.run(KEPT) if 'round.' in key]
    before, listed = rounds(ann), len(ann.all('.kept li'))
    own = '.kept li:has(a[href="#' + urls['link-1'].split('#')[1] + '"])'
    forget(ann, own, False)
    same('who thinks better of it forgets nothing', [len(ann.all('.kept li')), len(rounds(ann))], [listed, len(before)])
    forget(ann, own, True)
    same('one is forgotten', [len(ann.all('.kept li')), len(rounds(ann))], [listed - 1, len(before) - 1])
    check('it is that one', not [key for key in rounds(ann) if key.endswith(urls['link-1'].split('.')[-2][:12])], str(rounds(ann)))
    ann.press('Undo')
    same('and can be put back', [len(ann.all('.kept li')), sorted(rounds(ann))], [listed, sorted(before)])
    forget(ann, own, True)
    # unticked
    ben.open(urls['link-2'])
    typed(ben, ['5', '4'])
    before = rounds(ben)
    ben.click('.remember label')
    ben.press('Send')
    ben.has('Your answer is saved', '#message')
    same('no round is kept where the tick was taken out', sorted(rounds(ben)), sorted(before))
    # somebody else's device
    olive.open(rig.url + '#new-goods')
    olive.put('#title', 'Typed')
    check('much is kept', len(olive.run(KEPT)) >= 3, str(olive.run(KEPT)))
    had = sorted(olive.run(KEPT))
    olive.click('#device button')
    check('it is said what goes', 'its key' in olive.ask('GET', '/alert/text') or 'their keys' in olive.ask('GET', '/alert/text'))
    olive.ask('POST', '/alert/dismiss')
    same('who thinks better of it keeps all', sorted(olive.run(KEPT)), had)
    olive.click('#device button')
    olive.accept()
    olive.until(lambda: 'isn’t your device' in olive.text('#device'))
    same('nothing is kept', olive.run(KEPT), [])
    olive.run('document.querySelector("#device button").click()')
    olive.until(lambda: 'my device' in olive.text('#device'))
    same('all of it can be put back', sorted(olive.run(KEPT)), had)
    olive.click('#device button')
    olive.accept()
    olive.until(lambda: 'isn’t your device' in olive.text('#device'))
    same('nothing is kept any more', olive.run(KEPT), [])
    same('the form keeps what stands in it', olive.values('#title', 'value'), ['Typed'])
    check('the tick is out', not olive.run('return document.querySelector(".remember input").checked'))
    olive.put('#title', 'More')
    same('nor is what is typed then', olive.run(KEPT), [])
    look(olive, 'a device of somebody else', look_at, shots)
    olive.open(urls['link-2'])
    olive.one('.remember input')
    same('nor what is bid', [olive.run('return document.querySelector(".remember input").checked'), olive.run(KEPT)], [False, []])
    olive.run('[...document.querySelectorAll("#device button")].at(-1).click()')
    olive.until(lambda: not olive.run('return document.querySelector(".remember input").disabled'))


def forget(p, line, is_sure):
    """Forgets a round of the list, or thinks better of it."""
    p.run('document.querySelector(arguments[0]).open = true', line + ' .menu')
    p.click(line + ' .menu button')
    p.ask('POST', '/alert/accept' if is_sure else '/alert/dismiss')


def drafts(rig, olive, ann, ben):
    """What someone typed comes back after a reload, a tap on the logo and Back. Once it has been sent, it is gone."""
    from rounds import links
    olive.open(rig.url + '#new-rent')
    for field, value in (('#title', 'Draft'), ('#members-0', 'Ann'), ('#rent', '1450'), ('#things-1', 'Back')):
        olive.put(field, value)
    whole = lambda: [olive.values(field, 'value')[0] for field in ('#title', '#members-0', '#rent', '#things-1')]
    olive.reload()
    olive.one('#title')
    same('a form after a reload', whole(), ['Draft', 'Ann', '1450', 'Back'])
    olive.run('document.getElementById("home").click()')
    olive.one('.kinds')
    olive.run('history.back()')
    olive.one('#title')
    same('a form after the logo and Back', whole(), ['Draft', 'Ann', '1450', 'Back'])
    asks = 'const e = new Event("beforeunload", {cancelable: true}); window.dispatchEvent(e); return e.defaultPrevented'
    olive.put('#title', 'Drafts')
    check('whoever leaves is asked', olive.run(asks))
    for field, value in (('#members-1', 'Ben'), ('#things-0', 'Attic')):
        olive.put(field, value)
    olive.press('Create the links')
    urls = links(olive)
    check('nobody is asked after that', not olive.run(asks))
    olive.open(rig.url + '#new-rent')
    olive.one('#title')
    same('the form is empty then', olive.values('#title', 'value'), [''])
    ann.open(urls['link-1'])
    typed(ann, ['1000', '400'])
    ann.reload()
    ann.has('is here again', '#message')
    same('a bid after a reload', ann.values('.values input.number', 'value'), ['1000', '400'])
    ann.put('#value-1', '450')
    ann.press('Send')
    ann.has('Your answer is saved', '#message')
    check('the draft is gone', not [key for key in ann.run(KEPT) if 'draft' in key], str(ann.run(KEPT)))
    check('nobody is asked after a bid', not ann.run(asks))
    check('when the result is there is told', re.search(r'The result appears here after \w+day.* at \d\d:\d\d: keep this link', ann.text('#stands')), ann.text('#stands'))
    ann.one('#stands + div button')
    ann.press('Add to calendar')
    path = ann.until(lambda: ann.saved(f'round-{urls["link-1"].split("#")[1].split(".")[0]}.ics'), 15, 'no appointment')
    with open(path, encoding='utf-8', newline='') as file:
        text = file.read()
    check('an appointment with the link', text.startswith('BEGIN:VCALENDAR\r\n') and urls['link-1'] in text.replace('\r\n ', ''), text)


def unanswered(rig, olive, ann, ben):
    """No answer to a question or to something sent, or a late one; a part of the page that doesn't load; no script at all."""
    from rounds import look_at, shots
    made, _, keys = rent_round(rig)
    rig.lossy.deaf = True
    began = time.time()
    ann.open(keys[0])
    ann.has('No answer from the server', seconds=20)
    check(f'it is told after {time.time() - began:.1f} seconds', time.time() - began < 6)
    check('a read says that nothing was sent', 'You didn’t send anything, and your link is fine' in ann.text())
    look(ann, 'no answer', look_at, shots)
    rig.lossy.deaf = False
    ann.press('Try again')
    typed(ann, ['500', '400'])
    rig.lossy.refuse = 3
    ann.press('Send')
    ann.has('What you sent may have been saved: sending the same again is safe', '#message')
    ann.press('Send the same again')
    ann.has('Your answer is saved', '#message')
    rig.lossy.slow = 8
    ann.reload()
    ann.has('hasn’t answered yet', seconds=8)
    rig.lossy.slow = 0
    ann.press('Try again')
    ann.one('#value-0')
    # the network goes
    ben.open(rig.url)
    ben.one('.kinds')
    ben.cdp('Network.enable')
    ben.cdp('Network.emulateNetworkConditions', offline=True, latency=0, downloadThroughput=0, uploadThroughput=0)
    ben.speak('de')
    ben.has('didn’t load. Are you offline?')
    same('the language stays', ben.run('return document.documentElement.lang'), 'en')
    ben.run('location.hash = "check"')
    ben.has('Part of the page is missing')
    look(ben, 'a part that is missing', look_at, shots)
    ben.cdp('Network.emulateNetworkConditions', offline=False, latency=0, downloadThroughput=-1, uploadThroughput=-1)
    ben.press('Try again')
    ben.one('#text')
    ann.open(keys[0])
    ann.one('#value-0')
    ann.cdp('Network.enable')
    ann.cdp('Network.emulateNetworkConditions', offline=True, latency=0, downloadThroughput=0, uploadThroughput=0)
    ann.run('document.getElementById("home").click()')
    ann.has('Part of the page is missing')
    ann.cdp('Network.emulateNetworkConditions', offline=False, latency=0, downloadThroughput=-1, uploadThroughput=-1)
    # no script, and one that is not understood
    for pattern in ('*js/main.js', '*js/words.js', '*js/dom.js'):
        ben.cdp('Network.setBlockedURLs', urls=[pattern])
        ben.cdp('Network.setCacheDisabled', cacheDisabled=True)
        ben.open(rig.url)
        ben.until(lambda: 'a part of the page didn’t load, or this browser is too old' in ben.text(), 10, f'a blank page without {pattern}')
    shots(ben, 'no-script')
    ben.cdp('Network.setBlockedURLs', urls=[])
    ben.cdp('Network.setCacheDisabled', cacheDisabled=False)
    for p in (ann, ben):
        p.complaints()


def passed_limit(rig, olive, ann, ben):
    """If the server's search passed its limit: the organiser's browser finishes it, and a member takes the result by a link or a file, has it judged, and has their own
    bid compared; a link that carries something else is told in red."""
    from rounds import look_at, shots
    bids = [[130, 130, 130, 130, 120, 120, 120, 120], [175, 175, 175, 175, 75, 75, 75, 75]]
    creation = {'kind': 'goods', 'title': 'Many', 'members': ['Ann', 'Ben'], 'goods': ITEMS, 'limit': 40, 'deadline': soon(86400), 'tag': tag()}
    made = api(rig, 'instances', body=creation)
    keys = [f'{rig.url}#{made["id"]}.{key}' for key in made['keys']]
    ann.open(keys[0])
    ann.one('#value-0')
    typed(ann, map(str, bids[0]))
    ann.press('Send')
    ann.has('Your answer is saved', '#message')
    api(rig, f'instances/{made["id"]}/bids', made['keys'][1], {'turn': 1, 'values': bids[1]})
    api(rig, f'instances/{made["id"]}/close', made['organiser'], {})
    ann.reload()
    ann.has('after 40 steps', seconds=60)
    ann.settled()
    check('a member is told who can finish it', 'The organiser’s device can finish it' in ann.text(), ann.text())
    same('for a couple the one with a split item comes first', ann.run('return document.querySelector("main details, main .card").id'), 'winner')
    ann.click('#languages button')
    ann.one('dialog.help[open]')
    same('its help is about this', ann.text('#help-title'), 'When there is no result')
    ann.click('dialog.help button')
    olive.open(f'{rig.url}#{made["id"]}.{made["organiser"]}..{creation["tag"]}')
    olive.judged('yes')
    same('both judge what the organiser’s browser found', olive.values('#judges', 'data-by'), ['both'])
    check('the organiser is told what that took', 'it fetched what everyone said' in olive.text('.note'), olive.text('.note'))
    look(olive, 'a result that the organiser’s browser found', look_at, shots)
    same('the links are there too', len(olive.all('.links .person')), 2)
    taken(rig, olive, ann, ben, keys)


COPIES = 'navigator.clipboard.writeText = async (text) => { window.copied = text; }'
PASTE = 'const e = document.getElementById("handed"); e.value = arguments[0]'


def taken(rig, olive, ann, ben, keys):
    """The result on its way from the organiser: by a link, by a file, and by links that aren't it."""
    from rounds import look_at, shots
    olive.run(COPIES)
    olive.press('Share the result')
    message = olive.until(lambda: olive.run('return window.copied'), 10, 'the link is not copied')
    url = message.split('\n')[-1]
    check(f'the link has {len(url)} signs, and what it carries stands behind its #', len(url) < 4000 and url.startswith(f'{rig.url}#result.'), url)
    number = keys[0].split('#')[1].split('.')[0]
    for words, says in (('x', 'not a complete certificate'), (url.replace(f'#result.{number}.', '#result.99.'), 'something else'), (url[:-9], '')):
        ann.run(PASTE, words)
        ann.press('Show the result')
        ann.until(lambda: ann.text('#handed-fault') or ann.all('#verdict'), 20, 'nothing is told')
        check(f'{words[:20]!r} is no result', not ann.all('.hero') and says in ann.text(), ann.text())
        if ann.all('#verdict'):
            ann.reload()
            ann.one('#handed')
            ann.settled()
    ann.run(PASTE, message)
    ann.press('Show the result')
    ann.judged('yes')
    check('it is the member’s own result', ann.text('.hero').startswith('A\nAnn\n') and ann.all('.proof.good'), ann.text('.hero'))
    check('it is told who made it', 'the organiser’s device finished it' in ann.text('.note'), ann.text('.note'))
    look(ann, 'a result that was handed on', look_at, shots)
    ann.reload()
    ann.judged('yes')
    same('after a reload it is there', ann.all('#handed'), [])
    ann.press('Use another link or file')
    ann.one('#handed')
    olive.press('Save as a file')
    path = olive.until(lambda: olive.saved(f'result-{number}.txt'), 15, 'no file is saved')
    with open(path, encoding='utf-8') as file:
        words = file.read()
    forged = words.replace('values 130 130', 'values 120 140')
    check('the bids stand in the file', forged != words, words[:400])
    for text in (forged, words):
        ann.settled()
        ann.run(PASTE, text)
        ann.press('Show the result')
        ann.judged()
        check('a file is judged, and one with another bid of one’s own is told in red or refused', bool(ann.all('.proof.good')) == (text == words), ann.text())
        if text != words:
            ann.reload()
            ann.one('#handed')
    ben.open(url)
    ben.judged('yes')
    check('whoever has no link of the round sees a check', ben.values('main', 'data-view') == ['check'] and 'Ann' in ben.text('#division'), ben.text())
    ann.open(url)
    ann.judged('yes')
    check('whoever has one sees their own', ann.text('.hero').startswith('A\nAnn\n') and ann.url().startswith(keys[0]), ann.url())


def old_numbers(rig, olive, ann, ben):
    """The same items among the same people once more: the old points are put in, as this browser knows them or by the old link."""
    from rounds import look_at, shots
    creation = {'kind': 'goods', 'title': 'Once', 'members': ['Ann', 'Ben'], 'goods': ['Desk', 'Lamp', 'Clock', 'Vase'], 'deadline': soon(86400)}
    first, second = (api(rig, 'instances', body={**creation, 'tag': tag()}) for _ in range(2))
    keys, later = ([f'{rig.url}#{made["id"]}.{key}' for key in made['keys']] for made in (first, second))
    bids = [['410', '290', '200', '100'], ['175', '325', '450', '50']]
    ann.open(keys[0])
    typed(ann, bids[0])
    ann.press('Send')
    ann.has('Your answer is saved', '#message')
    api(rig, f'instances/{first["id"]}/bids', first['keys'][1], {'turn': 1, 'values': [int(value) for value in bids[1]]})
    ann.open(later[0])
    ann.press('Put in my numbers')
    ann.has('not sent yet')
    same('the old points', ann.values('.values input.number', 'value'), bids[0])
    same('nothing is sent by itself', ann.values('#stands', 'data-turn'), ['0'])
    look(ann, 'a bid with the old points', look_at, shots)
    ben.open(later[1])
    ben.one('#old-link')
    ben.run('document.getElementById("old-link").closest("details").open = true')
    ben.put('#old-link', 'nothing')
    ben.press('Put in my numbers')
    ben.has('Part of the link is missing')
    ben.put('#old-link', keys[1])
    ben.press('Put in my numbers')
    ben.has('not sent yet')
    same('those behind the old link', ben.values('.values input.number', 'value'), bids[1])
    ben.press('Send')
    ben.has('Your answer is saved', '#message')


def handed_on(rig, olive, ann, ben):
    """The links: this is me and the way back, a message, a letter, a code to scan; and who hasn't answered yet."""
    from rounds import links, look_at, shots, wake
    made, organiser, keys = rent_round(rig)
    olive.open(organiser)
    urls = links(olive)
    same('the links of the members', [urls['link-1'], urls['link-2']], keys)
    same('nobody was sent theirs', olive.texts('.links .status'), ['not sent yet'] * 2)
    same('one button is the next step', len(olive.all('main .main')), 1)
    check('no link is seen', not olive.run('return [...document.querySelectorAll(".links input")].some((e) => e.checkVisibility())'))
    olive.click('.links .do > button')
    olive.until(lambda: olive.texts('.links .status')[0] != 'not sent yet', 10, 'that it was sent is not told')
    letter = olive.values('.links a[href^="mailto:"]', 'href')[0]
    import urllib.parse
    body = urllib.parse.unquote(letter)
    check('a letter says what it is, until when, and has the link', all(words in body for words in ('Ann, what is each room worth to you?', 'until ', keys[0])), body)
    olive.click('.links li:nth-child(2) .menu summary')
    olive.click('.links li:nth-child(2) button[aria-expanded]')
    olive.one('.qr')
    if shutil.which('zbarimg'):
        for dark in (False, True):
            olive.look(dark)
            path = os.path.join(rig.folder, 'code.png')
            olive.shot(path, '.qr')
            read = subprocess.run(['zbarimg', '-q', '--raw', path], capture_output=True, text=True, check=False).stdout.strip()
            same(f'the code is read from the {"dark" if dark else "light"} screen', read, keys[1])
        olive.look(False)
    olive.until(lambda: 'Copied' not in olive.text('.links'), 10, 'Copied stays')
    look(olive, 'the links with a code', look_at, shots)
    olive.run('document.querySelector(".links li .menu").open = true')
    olive.click('.links li .me')
    olive.has('Ann, what is each room worth to you?', 'h1')
    check('who could look is told', 'the person who created this has all links and could open yours' in olive.run('return document.querySelector("main").textContent'))
    typed(olive, ['500', '400'])
    olive.press('Send')
    olive.has('Your answer is saved', '#message')
    olive.run('[...document.querySelectorAll("main a")].find((a) => a.innerText.startsWith("Back to the organiser")).click()')
    olive.has('1 of 2 has answered', seconds=60)
    same('the way back leads to the organiser’s page', olive.url(), organiser)
    olive.one('.links .status')
    same('whoever is missing stands first', [text.split('\n')[0] for text in olive.texts('.links .name')], ['Ben', 'Ann'])
    check('what happens without them is told before the end', 'Not yet: Ben. Without an answer from everyone there is no result.' in olive.text('.people'), olive.text('.people'))
    api(rig, f'instances/{made["id"]}/bids', made['keys'][1], {'turn': 1, 'values': [40000, 50000]})
    wake(olive)
    olive.until(lambda: olive.texts('.links .status') == ['has answered'] * 2, 20, 'the links do not hear of a bid')
    same('then the result is the next step', olive.texts('main .main'), ['Show the result'])


def typing(rig, olive, ann, ben):
    """Amounts as people write them and by two buttons, Enter, empty rows, names that are too long, places along one road."""
    from rounds import links, look_at, shots
    olive.open(rig.url + '#new-rent')
    olive.one('#title')
    same('the currency of a Briton', olive.values('#currency', 'value'), ['GBP'])
    olive.put('#rent', '1,450')
    same('read by habit', olive.text('#rent + .reads'), '= £1,450.00')
    olive.put('#currency', 'eur')
    same('in any currency', olive.text('#rent + .reads'), '= €1,450.00')
    olive.put('#rent', 'much')
    olive.has('Enter an amount from', '#rent-fault')
    same('what is no amount keeps its text', olive.values('#rent', 'value'), ['much'])
    olive.put('#members-0', 'Ж' * 23)
    same('too long by', olive.text('#members-0-fault'), 'This is too long by 3 letters.')
    olive.put('#rent', '€1,450')
    olive.run('document.getElementById("title").focus()')
    for words in ('Flat\ue007', 'Ann\ue007', 'Ben\ue007', 'Attic\ue007', 'Back\ue007'):
        olive.keys(list(words)) if words != 'Ann\ue007' else (olive.put('#members-0', 'Ann'), olive.run('document.getElementById("members-1").focus()'))
    same('Enter goes on, and adds no row', [olive.values(f, 'value') for f in ('#title', '#members .item input', '#things .item input')], [['Flat'], ['Ann', 'Ben'], ['Attic', 'Back']])
    for _ in range(2):
        olive.click('#members button.add')
    olive.put('#things-3', 'Third')
    olive.press('Create the links')
    olive.has('There are 3 rooms for 2 people', '#summary')
    look(olive, 'a summary of faults', look_at, shots)
    olive.put('#things-3', '')
    olive.press('Create the links')
    urls = links(olive)
    round_ = api(rig, 'instances/' + urls['link-0'].split('#')[1].split('.')[0], urls['link-1'].split('.')[-2])
    same('empty rows are ignored', [round_['members'], round_['rooms'], round_['rent']], [['Ann', 'Ben'], ['Attic', 'Back'], 145000])
    swiss(rig)
    # a taxi
    olive.open(rig.url + '#new-fares')
    for field, value in (('#title', 'Road'), ('#members-0', 'Ann'), ('#members-1', 'Ben'), ('#things-0', 'Mill'), ('#things-1', 'Bridge'), ('#flag', '3')):
        olive.put(field, value)
    check('the deadline is an hour ahead', abs(olive.run('return new Date(document.getElementById("deadline").value) - Date.now()') - 3_600_000) < 120_000)
    olive.click('#things button.add')
    olive.put('#things-2', 'Church')
    olive.click('fieldset .tick')
    for at, cost in enumerate(('7', '12', '9.50')):
        olive.put(f'#legs-0-{at}', cost)
    look(olive, 'places along one road', look_at, shots)
    olive.press('Create the links')
    urls = links(olive)
    round_ = api(rig, 'instances/' + urls['link-0'].split('#')[1].split('.')[0], urls['link-1'].split('.')[-2])
    same('the trips between follow', round_['legs'], [[700, 1200, 950], [0, 500, 250], [500, 0, 250], [250, 250, 0]])


def swiss(rig):
    """If the page can't know what a sign means, it asks with two buttons."""
    from rounds import links, look_at, shots
    urs = rig.engine.browser(True, 'de-CH')
    try:
        urs.open(rig.url + '#new-rent')
        urs.one('#title')
        same('the currency of a Swiss', urs.values('#currency', 'value'), ['CHF'])
        for field, value in (('#title', 'WG'), ('#members-0', 'Urs'), ('#members-1', 'Änne'), ('#things-0', 'A'), ('#things-1', 'B'), ('#rent', '1,450')):
            urs.put(field, value)
        urs.has('Welchen Betrag meinst du?')
        before = len(rig.lossy.seen)
        urs.press('Links erstellen')
        urs.has('einen der beiden Beträge', '#summary')
        check('nothing is sent before one is picked', not [s for s in rig.lossy.seen[before:] if s[0].startswith('POST')])
        look(urs, 'two amounts', look_at, shots)
        urs.press('CHF\u00a01')
        same('the one that was picked', urs.values('#rent', 'value'), ['1450.00'])
        urs.press('Links erstellen')
        urls = links(urs)
        round_ = api(rig, 'instances/' + urls['link-0'].split('#')[1].split('.')[0], urls['link-1'].split('.')[-2])
        same('what is sent', round_['rent'], 145000)
        urs.open(urls['link-1'])
        urs.put('#value-0', '1,000')
        urs.has('Welchen Betrag meinst du?')
        urs.press('Senden')
        check('nor is a bid sent', 'gespeichert' not in urs.text('#message'))
        urs.press('CHF\u00a01')
        urs.put('#value-1', "CHF 450")
        urs.press('Senden')
        urs.has('Deine Antwort ist gespeichert', '#message')
        same('the bid', api(rig, 'instances/' + urls['link-1'].split('#')[1].split('.')[0] + '/bid', urls['link-1'].split('.')[-2])['values'], [100000, 45000])
        same('complaints of the browser of the Swiss', urs.complaints(), [])
    finally:
        urs.end()


def in_sight(rig, olive, ann, ben):
    """On a phone the sum and the button that sends stay in sight. Turns are shown from the fifteenth on. Text of twice the size fits."""
    from rounds import shots
    made, _, keys = rent_round(rig)
    for turn in range(1, 15):
        api(rig, f'instances/{made["id"]}/bids', made['keys'][0], {'turn': turn, 'values': [turn, 90000 - turn]})
    ann.open(keys[0])
    ann.one('#value-0')
    check('fourteen turns are not told', 'more time' not in ann.text('#stands'), ann.text('#stands'))
    ann.run('window.scrollTo(0, document.querySelector(".values").getBoundingClientRect().top + scrollY - 20)')
    for selector in ('.bar .rest', '.bar button.main'):
        box = ann.run('const r = document.querySelector(arguments[0]).getBoundingClientRect(); return [r.top >= 0, r.bottom <= innerHeight]', selector)
        same(f'{selector} is in sight', box, [True, True])
    if TALLY.shots:
        data = ann.cdp('Page.captureScreenshot', format='png')['data']
        import base64
        with open(os.path.join(TALLY.shots, 'bar-phone.png'), 'wb') as file:
            file.write(base64.b64decode(data))
    ann.press('Send the change')
    ann.has('5 more times', '#stands')
    many = {'kind': 'goods', 'title': 'Long', 'members': ['Ann', 'Ben'], 'goods': [f'A long name of a thing, number {i}' for i in range(24)], 'deadline': soon(86400), 'tag': tag()}
    made = api(rig, 'instances', body=many)
    ann.open(f'{rig.url}#{made["id"]}.{made["keys"][0]}')
    ann.one('#value-23')
    ann.run('document.documentElement.style.fontSize = "200%"')
    wide = ann.run('return document.documentElement.scrollWidth')
    check(f'text of twice the size fits: a long bid is {wide} wide', wide <= 391)
    shots_of_large(ann)
    ann.run('document.documentElement.style.fontSize = ""')
    ann.size(320, 256)  # as 400 % of a usual screen: the bar doesn't cover what there is
    same('on a low screen the bar doesn’t stay', ann.run('return getComputedStyle(document.querySelector(".bar")).position'), 'static')
    ann.size(*ann.home)


def shots_of_large(p):
    if TALLY.shots:
        p.shot(os.path.join(TALLY.shots, 'large-bid.png'))


# A slow phone network: so many milliseconds for a request, so many bytes a second, and how long a bid may take on it until something can be entered.
SLOW_NETWORK = {'offline': False, 'latency': 400, 'downloadThroughput': 50_000, 'uploadThroughput': 50_000}
USABLE = 4000


def slow_network(rig, olive, ann, ben):
    """On a slow phone network a bid can be entered within four seconds. Played by name, since a busy machine takes longer."""
    made, _, keys = rent_round(rig)
    ann.cdp('Network.enable')
    ann.cdp('Network.setCacheDisabled', cacheDisabled=True)
    ann.cdp('Network.emulateNetworkConditions', **SLOW_NETWORK)
    ann.open(keys[0])
    ann.one('#value-0')
    [took, painted] = ann.run('return [performance.now(), performance.getEntriesByName("first-contentful-paint")[0].startTime]')
    print(f'page: on a slow network something is seen after {painted:.0f} ms, and a bid can be entered after {took:.0f} ms', flush=True)
    check(f'a bid can be entered after {took:.0f} ms', took <= USABLE)
    ann.cdp('Network.emulateNetworkConditions', offline=False, latency=0, downloadThroughput=-1, uploadThroughput=-1)
    ann.cdp('Network.setCacheDisabled', cacheDisabled=False)


KEEPING = [remembered, drafts, unanswered, passed_limit, old_numbers, handed_on, typing, in_sight]
