#!/usr/bin/env python3
"""Draws what the program wrote, as text: the envy table of a report, and the tree of a certificate of goods. And the chart of SEARCH.md.

draw.py            writes docs/pictures anew, from the files of examples/ and the tables of how many estates were answered
draw.py --check    tells whether they are as they would be written
draw.py FILE       draws one report or certificate to the standard output
"""
import os
import sys

sys.dont_write_bytecode = True
from chart import chart

HERE = os.path.dirname(os.path.abspath(__file__))
PICTURES = [
    ('flat-for-three.report.txt', 'flat-for-three.envy.txt'),
    ('three-heirs.report.txt', 'three-heirs.envy.txt'),
    ('three-heirs.txt', 'three-heirs.tree.txt'),
    ('attic-for-two.txt', 'attic-for-two.tree.txt'),
]


def people(lines):
    """The members of a report: number, name and what they get."""
    return [(line.split(' ', 1)[0], *line.split(' ', 1)[1].split(': ', 1)) for line in lines if line[:1].isdigit()]


def bar(number, unit):
    """A number as a bar: to the left what is worse, to the right what is better."""
    marks = '#' * min(20, (abs(number) + unit - 1) // unit)
    return f'{marks:>20}|{"":20}' if number <= 0 else f'{"":20}|{marks:<20}'


def envy_picture(text):
    """Each member with what each other has: how much better off they would be."""
    lines = text.splitlines()
    who = people(lines)
    rows = [[int(number) if '/' not in number else int(number.split('/')[0]) // int(number.split('/')[1])
             for number in line.split(': ', 1)[1].split()] for line in lines if line.startswith('envy ')]
    if not rows:
        sys.exit('draw: this has no table of envy, and is no certificate of goods')
    unit = max(1, max(abs(number) for row in rows for number in row) // 20)
    wide = max(len(name) for _, name, _ in who)
    drawn = [lines[0], '']
    for (_, name, got), row in zip(who, rows):
        drawn.append(f'{name} has {got}')
        for (_, other, _), number in zip(who, row):
            if other != name:
                drawn.append(f'  with what {other:<{wide}} has {number:>6} {bar(number, unit)}'.rstrip())
        drawn.append('')
    drawn.append('Left of the line is worse for them, right of it better. Nothing stands right: nobody envies.'
                 if all(number <= 0 for row in rows for number in row) else 'Left of the line is worse for them, right of it better.')
    return '\n'.join(drawn) + '\n'


def search_order(values):
    """The goods, from 0, by falling greatest points, ties to the lower number."""
    return sorted(range(len(values[0])), key=lambda good: (-max(row[good] for row in values), good))


def tree_picture(text):
    """The tree of a certificate of goods, a node a line."""
    fields = [line.split(' ') for line in text.splitlines()]
    values = [[int(number) for number in line[1:]] for line in fields if line[0] == 'values']
    marks = iter(next(line[1] for line in fields if line[0] == 'tree'))
    order = search_order(values)
    drawn = ['Goods in search order: ' + ', '.join(f'{good + 1} ({max(row[good] for row in values)})' for good in order), '']
    says = {'+': '', '-': 'cut: nothing better can come', '=': 'the answer'}

    def node(owners):
        mark = next(marks)
        points = [sum(row[order[k]] for k, owner in enumerate(owners) if owner == player) for player, row in enumerate(values)]
        label = f'good {order[len(owners) - 1] + 1} to {owners[-1] + 1}' if owners else 'no good given'
        drawn.append(f'{"  " * len(owners)}{mark} {label:<14} points {" ".join(map(str, points)):<12} {says[mark]}'.rstrip())
        if mark == '+':
            for player in range(len(values)):
                node(owners + [player])

    node([])
    return '\n'.join(drawn) + '\n'


def picture(path):
    with open(path, encoding='utf-8') as file:
        text = file.read()
    return tree_picture(text) if text.startswith('fairsplit 1\nkind goods\n') else envy_picture(text)


def main(words):
    if words and words[0] != '--check':
        sys.stdout.write(picture(words[0]))
        return 0
    wrong = 0
    sources = [(source, target, lambda source=source: picture(os.path.join(HERE, '..', 'examples', source))) for source, target in PICTURES]
    for source, target, draws in [*sources, ('the tables', 'goods-answered.svg', chart)]:
        drawn = draws()
        path = os.path.join(HERE, 'pictures', target)
        if not words:
            with open(path, 'w', encoding='utf-8') as file:
                file.write(drawn)
        elif not os.path.exists(path) or open(path, encoding='utf-8').read() != drawn:
            print(f'draw: {target} is not what is drawn of {source}')
            wrong += 1
    return wrong != 0


if __name__ == '__main__':
    sys.exit(main(sys.argv[1:]))
