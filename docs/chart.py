"""The chart of docs/SEARCH.md: how many of the drawn estates were answered, by people and items. docs/draw.py writes it."""
import json
import os

HERE = os.path.dirname(os.path.abspath(__file__))
CELL_WIDTH, CELL_HEIGHT, LEFT, TOP, GAP = 34, 24, 44, 64, 36
SAID = {'any': 'any points', 'stepped': 'multiples of 50'}


def independent():
    """The tables of people whose points are drawn for themselves."""
    with open(os.path.join(HERE, 'goods_answered.json'), encoding='utf-8') as file:
        return json.load(file)


def alike():
    """The tables of people who share half of their points."""
    with open(os.path.join(HERE, 'goods_alike.json'), encoding='utf-8') as file:
        return json.load(file)


def text(x, y, words, size=12, anchor='middle', weight='normal', fill='#1f2933'):
    """One line of text."""
    return f'<text x="{x}" y="{y}" font-size="{size}" text-anchor="{anchor}" font-weight="{weight}" fill="{fill}">{words}</text>'


def panel(left, top, title, table, key):
    """One table as coloured cells: the darker, the more estates got an answer."""
    parts = [text(left + LEFT, top - 26, title, 13, 'start', 'bold')]
    parts += [text(left + LEFT + CELL_WIDTH * (i + 0.5), top - 8, goods) for i, goods in enumerate(table['goods'])]
    for line, (people, counts) in enumerate(zip(table['people'], table[key])):
        y = top + CELL_HEIGHT * line
        parts.append(text(left + LEFT - 8, y + 16, people, anchor='end'))
        for i, count in enumerate(counts):
            share = count / table['of']
            parts.append(f'<rect x="{left + LEFT + CELL_WIDTH * i}" y="{y}" width="{CELL_WIDTH - 2}" height="{CELL_HEIGHT - 2}" fill="#0f766e" fill-opacity="{0.06 + 0.94 * share:.2f}"/>')
            parts.append(text(left + LEFT + CELL_WIDTH * (i + 0.5) - 1, y + 16, count, 11, fill='#ffffff' if share > 0.5 else '#1f2933'))
    return parts


def chart():
    """The whole chart, as SVG."""
    tables = [('Different wishes', independent()), ('Similar wishes', alike())]
    wide = LEFT + CELL_WIDTH * 9 + GAP
    high = CELL_HEIGHT * 8 + TOP
    parts = []
    for column, (name, table) in enumerate(tables):
        for line, key in enumerate(SAID):
            parts += panel(column * wide, TOP + line * high, f'{name}, {SAID[key]}', table, key)
    foot = TOP + 2 * high - 24
    parts.append(text(LEFT, foot, f'Answers out of {tables[0][1]["of"]}. Across: items. Down: people.', 12, 'start'))
    size = f'{2 * wide} {foot + 16}'
    return (f'<svg xmlns="http://www.w3.org/2000/svg" viewBox="0 0 {size}" font-family="sans-serif">\n'
            f'<rect width="{2 * wide}" height="{foot + 16}" fill="#ffffff"/>\n' + '\n'.join(parts) + '\n</svg>\n')
