"""What the tests of the package share: the cases and texts of examples/, and why a call gives no division."""
import json
import threading
from pathlib import Path

import fairsplit
from fairsplit import FairsplitError

EXAMPLES = Path(__file__).resolve().parents[2] / 'examples'
FLAT = [[800, 100, 0], [700, 200, 0], [300, 300, 300]]
LEGS = [[1000, 1500], [0, 700], [900, 0]]


def example(name):
    """A case of examples/."""
    return json.loads((EXAMPLES / f'{name}.json').read_text())


def report_of(case):
    """What the program's `report` says of a case."""
    status, said = fairsplit.run('report', json.dumps(case).encode())
    assert status == 0, said
    return said.decode()


def text(name):
    """A text of examples/."""
    return (EXAMPLES / f'{name}.txt').read_text()


def flat():
    """What the three of the flat would pay for its rooms."""
    case = example('flat-for-three')
    return {member: dict(zip(case['rooms'], bid)) for member, bid in zip(case['members'], case['bids'])}


def refusal(call):
    """Why a call gives no division: the error's type, and what it names."""
    try:
        call()
    except FairsplitError as error:
        return type(error).__name__, {name: value for name, value in vars(error).items() if name != 'reason'}
    return None


def refused(field):
    """The refusal of a field, whatever the reason."""
    return 'Refused', {'status': 3, 'field': field, 'line': None, 'said': f'refused: field {field}'}


def names(letter, count):
    """So many names."""
    return [f'{letter}{number}' for number in range(1, count + 1)]


def in_little_stack(call):
    """What a call gives in a thread with 128 kB of stack."""
    found = []
    before = threading.stack_size(128 * 1024)
    try:
        thread = threading.Thread(target=lambda: found.append(call()))
        thread.start()
    finally:
        threading.stack_size(before)
    thread.join()
    return found[0]


def heirs():
    """What the goods of the house are worth to the three heirs."""
    case = example('three-heirs')
    return {member: dict(zip(case['goods'], bid)) for member, bid in zip(case['members'], case['bids'])}
