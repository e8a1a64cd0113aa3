#!/usr/bin/env python3
"""Asks the program what the library has to answer, and writes it as rows of command, input, status and text, the middle and the last in base64.

    rows.py PROGRAM OUT.json

The inputs are those of cases/, by .ci/cases, and drawn ones: cases with their certificates, forged texts, and certificates changed in one byte.
"""
import base64
import glob
import json
import os
import random
import subprocess
import sys
import tempfile
from collections import Counter
from concurrent.futures import ThreadPoolExecutor

CI = os.path.join(os.path.dirname(os.path.abspath(__file__)), '..')
SEED = 7
CASES = 90
FORGED = 4
CHANGED = 2000
WORDS = {'solve': ['1'], 'report': ['1']}
PLAIN = ([], ['1'], ['2'], ['8'], ['16'])


def row(command, given, status, text):
    return [command, base64.b64encode(given).decode(), status, base64.b64encode(text).decode()]


def recorded(program):
    """The rows of cases/. The library has one worker, and the number of workers never changes an answer."""
    with tempfile.TemporaryDirectory() as folder:
        environment = {**os.environ, 'FAIRSPLIT': f'{CI}/library_tests/record', 'PROGRAM': program, 'RECORDS': folder}
        subprocess.run([f'{CI}/cases'], env=environment, check=True)
        rows = []
        for name in sorted(glob.glob(f'{folder}/*.words')):
            with open(name, errors='replace') as file:
                status, command, *rest = file.read().split('\n')[:-1]
            if rest in PLAIN and bool(rest) == (command in WORDS):
                given, text = (open(name[:-5] + end, 'rb').read() for end in ('in', 'out'))
                rows.append(row(command, given, int(status), text))
        return rows


def spread(draw, count, whole):
    """So many numbers that add up to the whole."""
    cuts = sorted(draw.randint(0, whole) for _ in range(count - 1)) + [whole]
    return [after - before for before, after in zip([0] + cuts, cuts)]


def names(count, letter):
    return [f'{letter}{number}' for number in range(1, count + 1)]


def rent(draw):
    members, total = draw.randint(2, 7), draw.choice([draw.randint(1, 20), draw.randint(1, 200_000)])
    return {'kind': 'rent', 'title': 'x', 'members': names(members, 'm'), 'rooms': names(members, 'r'), 'rent': total,
            'bids': [spread(draw, members, total) for _ in range(members)]}


def goods(draw, least=1, members=None):
    members, count, unit = members or draw.randint(2, 5), draw.randint(least, 9), draw.choice([1, 100])
    bids = [None if k > 1 and draw.random() < 0.2 else [points * unit for points in spread(draw, count, 1000 // unit)] for k in range(members)]
    return {'kind': 'goods', 'title': 'x', 'members': names(members, 'm'), 'goods': names(count, 'g'), 'bids': bids}


def fares(draw):
    members, places, far = draw.randint(2, 6), draw.randint(1, 5), draw.choice([5, 2000])
    legs = [[0 if start == end + 1 else draw.randint(0, far) for end in range(places)] for start in range(places + 1)]
    return {'kind': 'fares', 'title': 'x', 'members': names(members, 'm'), 'places': names(places, 'p'), 'flag': draw.randint(0, 500), 'legs': legs,
            'bids': [None if k > 1 and draw.random() < 0.2 else draw.randint(1, places) for k in range(members)]}


def broken(draw, body):
    """The JSON of a case in which something is wrong."""
    text = json.dumps(body)
    at, field = draw.randrange(len(text)), draw.choice(list(body))
    return draw.choice([
        text[:at],
        text[:at] + draw.choice('{}[],:"0-9 x') + text[at + 1:],
        json.dumps({name: value for name, value in body.items() if name != field}),
        json.dumps({**body, field: draw.choice([None, 0, -1, 'x', [], [[1]], 10 ** 30])}),
    ])


def changed_word(draw, word):
    if word.lstrip('-').isdigit():
        return str(int(word) + draw.choice([1, -1, 2, -7, 1000]))
    return ''.join(draw.choice('0123456789+-=') if mark in '0123456789+-=' and draw.random() < 0.3 else mark for mark in word)


def forged(draw, text):
    """A text in which one word or one line was changed."""
    lines = text.decode().split('\n')
    at = draw.randrange(len(lines) - 1)
    words = lines[at].split(' ')
    place = draw.randrange(len(words))
    if draw.random() < 0.7:
        words[place] = changed_word(draw, words[place])
        lines[at] = ' '.join(words)
    else:
        lines[at:at + 1] = draw.choice([[], [lines[at]] * 2, [lines[at] + draw.choice(['0', ' ', '\r', '/2'])]])
    return '\n'.join(lines).encode()


def changed(draw, text):
    """A text in which one byte was changed."""
    at = draw.randrange(len(text))
    byte = draw.choice([other for other in b'0123456789+-=/ \nabcdefghijklmnopqrstuvwxyz\x00\xff' if other != text[at]])
    return text[:at] + bytes([byte]) + text[at + 1:]


def drawn_inputs(draw, solve):
    """The commands and inputs to draw. `solve` gives what a command writes on a case."""
    certificates = []
    for k in range(CASES):
        body = [rent, goods, fares][k % 3](draw)
        given = json.dumps(body).encode()
        yield from (('solve', given), ('report', given), (draw.choice(['solve', 'report', 'weigh', 'winner']), broken(draw, body).encode()))
        texts = [('check', solve('solve', given))]
        if body['kind'] == 'goods':
            alive = [number for number, bid in enumerate(body['bids'], 1) if bid]
            yield 'weigh', json.dumps({**body, 'owners': [draw.choice(alive) for _ in body['goods']]}).encode()
            pair = json.dumps(goods(draw, 2, 2)).encode()
            yield 'winner', pair
            texts.append(('checkwinner', solve('winner', pair)))
        for command, text in texts:
            if text.startswith(b'fairsplit'):
                certificates.append((command, text))
                yield command, text
                yield from ((command, forged(draw, text)) for _ in range(FORGED))
    for _ in range(CHANGED):
        command, text = draw.choice(certificates)
        yield command, changed(draw, text)


def drawn(program):
    """The drawn rows."""
    def ask(asked):
        command, given = asked
        ran = subprocess.run([program, command, *WORDS.get(command, [])], input=given, capture_output=True)
        return row(command, given, ran.returncode, ran.stdout)

    inputs = drawn_inputs(random.Random(SEED), lambda command, given: base64.b64decode(ask((command, given))[3]))
    with ThreadPoolExecutor(4) as pool:
        return list(pool.map(ask, inputs))


def main(program, out):
    known, new = recorded(program), drawn(program)
    with open(out, 'w') as file:
        json.dump(known + new, file)
    verdicts = Counter(status for command, _, status, _ in new if command.startswith('check'))
    print(f'library: {len(known)} inputs of cases/ and {len(new)} drawn; of the drawn texts {verdicts[0]} are right, {verdicts[1]} break a rule, {verdicts[3]} are no text')


if __name__ == '__main__':
    if len(sys.argv) != 3:
        sys.exit(__doc__)
    main(os.path.realpath(sys.argv[1]), sys.argv[2])
