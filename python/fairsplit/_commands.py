"""Cases as JSON for the commands that read it, with the caller's names where a case may have them."""
from __future__ import annotations

import json
from typing import Any, Dict, Hashable, List, Optional, Sequence

from ._errors import error_of
from ._library import run
from ._limits import LONGEST_NAME
from ._names import Names
from ._tables import Table

Case = Dict[str, Any]


def _is_name(name: Hashable) -> bool:
    """Whether a case may have this name."""
    try:
        return isinstance(name, str) and 0 < len(name.encode()) <= LONGEST_NAME and all(' ' <= mark != '\x7f' for mark in name)
    except UnicodeEncodeError:
        return False


def said(names: Names, letter: str) -> List[str]:
    """Names for the library, which never change a division: yours may be anything, and those that a case can't have become m1, m2 and so on."""
    return [str(name) if _is_name(name) else f'{letter}{number}' for number, name in enumerate(names, 1)]


def title_of(title: Optional[str], kind: str) -> str:
    """The title of a case: the one that is given, or else its kind."""
    if title is not None and not _is_name(title):
        raise ValueError(f'{title!r} is no title: give a text of 1 to {LONGEST_NAME} bytes without control characters')
    return kind if title is None else title


def case_of(title: str, kind: str, members: Names, items: str, names: Names, bids: Sequence[Any], **facts: Any) -> Case:
    """A case as the commands read it. `items` are its rooms, goods or places, which have these names."""
    return {'kind': kind, 'title': title, 'members': said(members, 'm'), items: said(names, items[0]), **facts, 'bids': bids}


def goods_case(table: Table[Any, Any], limit: Optional[int] = None) -> Case:
    """The case of goods that a table is."""
    facts = {} if limit is None else {'limit': limit}
    return case_of('goods', 'goods', table.members, 'goods', table.columns, table.rows, **facts)


def text_of(command: str, case: Case, members: Names) -> str:
    """What a command writes on a case, or its refusal as an error."""
    status, text = run(command, json.dumps(case).encode())
    if status:
        raise error_of(status, text.decode().strip(), members)
    return text.decode()
