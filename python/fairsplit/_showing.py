"""Divisions as HTML, for notebooks: a table, and a picture of who envies whom."""
from __future__ import annotations

from html import escape
from typing import Any, Dict, Hashable, List, Sequence

CELL = 44
LABEL = 90


def _text(value: Any) -> str:
    """A value as a cell shows it."""
    return escape(', '.join(map(str, value)) if isinstance(value, tuple) else str(value))


def html_table(rows: List[Dict[str, Any]]) -> str:
    """Rows as a table, with a head."""
    head = ''.join(f'<th>{escape(name)}</th>' for name in (rows[0] if rows else ()))
    body = ''.join(f'<tr>{"".join(f"<td>{_text(value)}</td>" for value in row.values())}</tr>' for row in rows)
    return f'<table><thead><tr>{head}</tr></thead><tbody>{body}</tbody></table>'


def _cell(row: int, column: int, gain: Any, most: Any) -> str:
    """A square of the picture: red where someone envies, green where they are content, and the darker the more it is."""
    colour = '#eeeeee' if row == column else '#d62728' if gain > 0 else '#2ca02c'
    depth = 1 if row == column else 0.15 + 0.65 * float(abs(gain) / most) if most else 0.15
    left, top = LABEL + CELL * column, CELL * (row + 1)
    label = '' if row == column else f'{float(gain):g}'
    return (f'<rect x="{left}" y="{top}" width="{CELL}" height="{CELL}" fill="{colour}" fill-opacity="{depth:.2f}" stroke="#fff"/>'
            f'<text x="{left + CELL // 2}" y="{top + CELL // 2 + 4}" text-anchor="middle">{label}</text>')


def _name(name: Hashable, x: int, y: int, anchor: str) -> str:
    """The name of a row or of a column, cut short if there is no room."""
    said = str(name)
    return f'<text x="{x}" y="{y}" text-anchor="{anchor}">{escape(said if len(said) <= 12 else said[:11] + "…")}</text>'


def envy_picture(names: Sequence[Hashable], envy: Sequence[Sequence[Any]]) -> str:
    """What each member would gain by having the share of each other one, as a picture; nothing, if there is no envy to show."""
    if not envy:
        return ''
    most = max(abs(gain) for row in envy for gain in row)
    cells = ''.join(_cell(row, column, gain, most) for row, gains in enumerate(envy) for column, gain in enumerate(gains))
    heads = ''.join(_name(name, LABEL + CELL * place + CELL // 2, CELL - 8, 'middle') for place, name in enumerate(names))
    sides = ''.join(_name(name, LABEL - 6, CELL * (place + 1) + CELL // 2 + 4, 'end') for place, name in enumerate(names))
    width, height = LABEL + CELL * len(names) + 10, CELL * (len(names) + 1) + 4
    return (f'<svg xmlns="http://www.w3.org/2000/svg" width="{width}" height="{height}" font-family="sans-serif" font-size="11" role="img">'
            f'<title>What the member of each row would gain by having the share of each column: red is envy</title>{heads}{sides}{cells}</svg>')
