#!/usr/bin/env python3
"""Measures how likely goods have an answer: for so many people and things, of how many drawn estates the search ends within the greatest limit.

goods_answered.py            writes both tables, as Markdown and to docs/goods_answered.json; about a minute
goods_answered.py --check    tells whether docs/goods_answered.json has them so
goods_answered.py --check PEOPLE    the same of only the rows of so many people
goods_answered.py --check few       the same of a few cells, for the gate: those that end soon
goods_answered.py --alike           measures people who want much the same, and writes docs/goods_alike.json; two minutes

The points of each person are drawn at random, and then the same are put to multiples of 50. The program is the one that the gate built, or that of
FAIRSPLIT. Where no estate with as many things as people or more was answered, those of the row with more things are not tried and count as not
answered. The steps of a case do not go by the machine, so each run writes the same.
"""
import json
import os
import random
import re
import subprocess
import sys

HERE = os.path.dirname(os.path.abspath(__file__))
PROGRAM = os.environ.get('FAIRSPLIT', os.path.join(HERE, '../crates/fairsplit/out/fairsplit'))
ANSWERED = os.path.join(HERE, 'goods_answered.json')
ALIKE = os.path.join(HERE, 'goods_alike.json')
PEOPLE = [2, 3, 4, 5, 6, 8, 10, 12]
GOODS = [4, 6, 8, 10, 12, 14, 16, 20, 24]
DRAWS = 20
FEW = {2: [4, 8], 3: [4, 6], 4: [4]}  # people, and the numbers of things of the cells
LIMIT = 200_000
POINTS = 1000
STEP = 50


def drawn(draw, goods):
    """Points over so many things, each way to cut them as likely as any other."""
    cuts = sorted(draw.randint(0, POINTS) for _ in range(goods - 1))
    return [high - low for low, high in zip([0] + cuts, cuts + [POINTS])]


def stepped(points):
    """The same in multiples of the step, what is left over going to the greatest remainders."""
    low = [value // STEP * STEP for value in points]
    order = sorted(range(len(points)), key=lambda good: (low[good] - points[good], good))
    for good in order[:(POINTS - sum(low)) // STEP]:
        low[good] += STEP
    return low


def drawn_alike(draw, shared, goods):
    """Points half of which everybody shares: the shared half of 500 points, and 500 of the person's own."""
    return [common + own for common, own in zip(shared, halved(draw, goods))]


def halved(draw, goods):
    """500 points over so many things, each way to cut them as likely as any other."""
    cuts = sorted(draw.randint(0, POINTS // 2) for _ in range(goods - 1))
    return [high - low for low, high in zip([0] + cuts, cuts + [POINTS // 2])]


def estate(draw, people, goods, alike):
    """The points of each person."""
    if not alike:
        return [drawn(draw, goods) for _ in range(people)]
    shared = halved(draw, goods)
    return [drawn_alike(draw, shared, goods) for _ in range(people)]


def answered(bids):
    """Whether the search ends within the limit."""
    case = {'kind': 'goods', 'title': 'x', 'members': [str(i) for i in range(len(bids))], 'goods': [str(i) for i in range(len(bids[0]))], 'limit': LIMIT, 'bids': bids}
    text = subprocess.run([PROGRAM, 'report', '1'], input=json.dumps(case), capture_output=True, text=True, check=False).stdout
    if not re.search(r'^(positive|step limit)', text, re.M):
        sys.exit(f'goods_answered: the program wrote {text!r}')
    return not text.startswith('step limit')


def cell(people, goods, shape, alike=False):
    """Of how many draws with so many things there was an answer."""
    draws = [random.Random(f'{people} people, {goods} goods, draw {number}') for number in range(DRAWS)]
    return sum(answered([shape(points) for points in estate(draw, people, goods, alike)]) for draw in draws)


def row(people, shape, alike=False):
    """Of how many draws each number of things was answered."""
    counts, ended = [], False
    for goods in GOODS:
        if ended:
            counts.append(0)
            continue
        counts.append(cell(people, goods, shape, alike))
        ended = counts[-1] == 0 and goods >= people
    return counts


def measured(people, alike=False):
    """The rows of these numbers of people: with any points, and with points in steps."""
    return {'any': [row(n, list, alike) for n in people], 'stepped': [row(n, stepped, alike) for n in people]}


def few_right(there):
    """Whether the few cells are as they are told."""
    at = lambda key, people, goods: there[key][PEOPLE.index(people)][GOODS.index(goods)]
    cells = [(people, goods) for people, some in FEW.items() for goods in some]
    return all(at(key, *where) == cell(*where, shape) for where in cells for key, shape in (('any', list), ('stepped', stepped)))


def told():
    """The tables in docs/goods_answered.json."""
    with open(ANSWERED, encoding='utf-8') as file:
        return json.load(file)


def kept(path, rows):
    """Writes tables into a file."""
    with open(path, 'w', encoding='utf-8') as file:
        json.dump({'of': DRAWS, 'people': PEOPLE, 'goods': GOODS, **rows}, file)
        file.write('\n')


def markdown(rows):
    """Both tables in one: with any points, and behind the bar in steps."""
    lines = ['| people | ' + ' | '.join(f'{goods} items' for goods in GOODS) + ' |', '|---' * (len(GOODS) + 1) + '|']
    for n, some, coarse in zip(PEOPLE, rows['any'], rows['stepped']):
        lines.append(f'| {n} | ' + ' | '.join(f'{a}, {b}' for a, b in zip(some, coarse)) + ' |')
    return '\n'.join(lines)


def main():
    if sys.argv[1:2] == ['--check']:
        there = told()
        right = there['people'] == PEOPLE and there['goods'] == GOODS and there['of'] == DRAWS
        if sys.argv[2:] == ['few']:
            right, what = right and few_right(there), f'in {sum(map(len, FEW.values()))} cells'
        else:
            some = [int(word) for word in sys.argv[2:]] or PEOPLE
            have = {key: [there[key][PEOPLE.index(n)] for n in some] for key in ('any', 'stepped')}
            right, what = right and have == measured(some), f'for {", ".join(map(str, some))} people'
        print(f'goods_answered: docs/goods_answered.json {"has" if right else "does not have"} what the program answers {what}')
        sys.exit(not right)
    if sys.argv[1:] == ['--alike']:
        rows = measured(PEOPLE, alike=True)
        kept(ALIKE, rows)
        print(markdown(rows))
        return
    if sys.argv[1:]:
        sys.exit(__doc__)
    rows = measured(PEOPLE)
    kept(ANSWERED, rows)
    print(markdown(rows))


if __name__ == '__main__':
    main()
