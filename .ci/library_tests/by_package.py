#!/usr/bin/env python3
"""by_package.py ROWS.json: what `rent`, `goods` and `fares` of the installed package find beside what the program answered to the same cases.

The package divides numbers, and the program reads JSON. A certificate has to be the same byte for byte, and so has the report that the shares of a
division give. Where the program refuses a case, finds it void or above its limit, the package has to end with the error that says so.
"""
import base64
import json
import sys

import fairsplit

OF_BYTES = (b'refused: too long\n', b'refused: json\n')
USUAL_LIMIT = 100_000
ITEMS = {'rent': 'rooms', 'goods': 'goods', 'fares': 'places'}


def are_names(found):
    """Whether they are names as a case may have them."""
    return isinstance(found, list) and all(isinstance(name, str) and name.isprintable() and 0 < len(name.encode()) <= 40 for name in found)


def is_row(found):
    """Whether it is a row of whole numbers."""
    return isinstance(found, list) and all(type(number) is int for number in found)


def are_rows(found, width):
    """Whether they are rows, or None, of which the first has this width, as the package wants them."""
    rows = [row for row in found if row is not None] if isinstance(found, list) else []
    return bool(rows) and all(map(is_row, rows)) and len(rows[0]) == width


def are_stops(found, places):
    """Whether they are places, or None."""
    return isinstance(found, list) and all(stop is None or (type(stop) is int and 1 <= stop <= places) for stop in found)


def can_be_said(body):
    """Whether values of Python can say this case: its names are names, its amounts whole numbers, and its rows lists."""
    kind = body.get('kind') if isinstance(body, dict) else None
    if kind not in ('rent', 'goods', 'fares') or not (are_names([body.get('title')]) and are_names(body.get('members')) and are_names(body.get(ITEMS[kind]))):
        return False
    width = len(body[ITEMS[kind]])
    if kind == 'fares':
        return is_row([body.get('flag')]) and are_rows(body.get('legs'), width) and are_stops(body.get('bids'), width)
    amount = body.get('rent') if kind == 'rent' else body.get('limit', 1)
    return is_row([amount]) and are_rows(body.get('bids'), width) and len(body['bids']) == len(body['members'])


def divided(body):
    """The division of a case by the package. Members and items are their numbers."""
    if body['kind'] == 'rent':
        return fairsplit.rent(body['rent'], body['bids'])
    if body['kind'] == 'goods':
        return fairsplit.goods(body['bids'], limit=body.get('limit', USUAL_LIMIT))
    return fairsplit.fares(body['flag'], body['legs'], body['bids'], members=range(1, len(body['members']) + 1))


def rent_lines(body, division):
    """The lines of the report of a rent."""
    yield from (f'members {len(body["members"])}', f'total {body["rent"]}')
    for it in division.shares:
        room = body['rooms'][it.room - 1]
        yield f'{it.member} {body["members"][it.member - 1]}: room {it.room} {room}, price {it.price}, pays {it.pays}, utility {it.utility}'
    yield f'least utility {division.least_utility}'


def goods_lines(body, division):
    """The lines of the report of goods."""
    yield f'players {len(division.shares)} of {len(body["members"])}'
    for it in division.shares:
        goods = ' '.join(map(str, it.goods)) or 'none'
        yield f'{it.member} {body["members"][it.member - 1]}: goods {goods}, points {it.points}'
    yield f'positive {division.positive}, product {division.product}, steps {division.steps}'


def fare_lines(body, division):
    """The lines of the report of a fare."""
    yield from (f'riders {len(division.shares)} of {len(body["members"])}', f'total {division.total}, route {" ".join(map(str, division.route))}')
    for it in division.shares:
        place = body['places'][it.place - 1]
        yield f'{it.member} {body["members"][it.member - 1]}: place {it.place} {place}, fare {it.fare}, pays {it.pays}, alone {it.alone}'


def report(body, division):
    """The report that the shares of a division give."""
    lines = [f'{body["kind"]} {body["title"]}', *{'rent': rent_lines, 'goods': goods_lines, 'fares': fare_lines}[body['kind']](body, division)]
    if body['kind'] != 'fares':
        lines += [f'envy {it.member}: {" ".join(map(str, row))}' for it, row in zip(division.shares, division.envy)]
    return ''.join(f'{line}\n' for line in lines)


def answer(command, body):
    """What the package finds, as the program writes it."""
    try:
        division = divided(body)
    except fairsplit.Void as error:
        return error.status, f'void: {" ".join(map(str, error.missing))}\n'
    except fairsplit.OverLimit as error:
        return error.status, f'step limit {error.limit}\n'
    except fairsplit.Refused as error:
        return error.status, f'{error.said}\n'
    return 0, division.text if command == 'solve' else report(body, division)


def whole(digits):
    """A whole number as the program reads it: -0 is none, though Python takes it for 0."""
    if digits == '-0':
        raise ValueError('-0 is no whole number')
    return int(digits)


def said(command, given, text):
    """The case that a row is about, if values of Python can say it. Some refusals are of the bytes alone."""
    if command not in ('solve', 'report') or text in OF_BYTES:
        return None
    try:
        body = json.loads(base64.b64decode(given), parse_int=whole)
    except (ValueError, RecursionError):
        return None
    return body if can_be_said(body) else None


def main(path):
    with open(path) as file:
        rows = json.load(file)
    tried = differ = 0
    for command, given, status, text in rows:
        body = said(command, given, base64.b64decode(text))
        if body is None:
            continue
        due, found = (status, base64.b64decode(text).decode()), answer(command, body)
        tried, differ = tried + 1, differ + (due != found)
        if due != found and differ < 6:
            print(f'library: {command}: {due} by the program, {found} by the package'[:600])
    print(f'library: rent, goods and fares of the package on {tried} cases: {differ} differ')
    return bool(differ or not tried)


if __name__ == '__main__':
    sys.exit(main(sys.argv[1]))
