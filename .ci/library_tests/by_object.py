#!/usr/bin/env python3
"""by_object.py ROWS.json: what the installed Python package, and so the shared object, answers beside what the program answered, in one process.

It also calls from eight threads at once, and lets the solvers divide the numbers of each case that the program divides, or finds above its limit.
"""
import base64
import json
import re
import sys
from concurrent.futures import ThreadPoolExecutor

from fairsplit import numbers, run

THREADS = 8
USUAL_LIMIT = 100_000


def difference(row):
    """What differs in a row, or None."""
    command, given, status, text = row
    due, found = (status, base64.b64decode(text)), run(command, base64.b64decode(given))
    return None if found == due else f'{command}: {due} by the program, {found} by the object'


def by_numbers(command, body):
    """What the numbers of a case give: the certificate, or instead of a report the amounts that everyone pays."""
    who = [member for member, bid in enumerate(body['bids'], 1) if bid is not None]
    bids = [body['bids'][member - 1] for member in who]
    if body['kind'] == 'rent':
        return (numbers.rent_cents if command == 'report' else numbers.rent)(body['rent'], bids)
    if body['kind'] == 'fares':
        return (numbers.fares_cents if command == 'report' else numbers.fares)(body['flag'], body['legs'], who, bids)
    return numbers.goods(body.get('limit', USUAL_LIMIT), who, bids)


def numbers_differ(row):
    """Whether the solvers differ on a row; None if it isn't one that they can answer."""
    command, given, status, text = row
    text = base64.b64decode(text).decode(errors='replace')
    if command not in ('solve', 'report') or (status and not text.startswith('step limit')):
        return None
    body = json.loads(base64.b64decode(given))
    if command == 'report' and body['kind'] == 'goods':
        return None
    due = text if command == 'solve' else [int(found) for found in re.findall(r'^\d+ .*, pays (-?\d+), ', text, re.MULTILINE)]
    return by_numbers(command, body) != (status, due)


def main(path):
    with open(path) as file:
        rows = json.load(file)
    differences = [said for said in map(difference, rows) if said]
    with ThreadPoolExecutor(THREADS) as pool:
        differences += [said for said in pool.map(difference, rows) if said]
    for said in differences[:5]:
        print('library:', said[:400])
    print(f'library: the shared object on {len(rows)} inputs, by one thread and by {THREADS}: {len(differences)} answers differ')
    tried = [differs for differs in map(numbers_differ, rows) if differs is not None]
    print(f'library: the solvers of the shared object on {len(tried)} certificates and cent plans: {sum(tried)} differ')
    return bool(differences or sum(tried) or not rows or not tried)


if __name__ == '__main__':
    sys.exit(main(sys.argv[1]))
