"""Tables as spreadsheets write them: values with commas, semicolons or tabs between, and numbers as people in many countries write them."""
from __future__ import annotations

import csv
import os
import re
from contextlib import contextmanager
from decimal import Decimal
from typing import Any, Iterable, Iterator, List, Optional, Tuple, Union

from ._tables import Table

Lines = Union['os.PathLike[str]', Iterable[str]]
Rows = List[Tuple[int, List[str]]]
BETWEEN = (';', '\t', ',')
# What stands between groups of three digits besides a point or a comma, and the signs of currencies.
_SPACES = str.maketrans('', '', ' \u00a0\u202f\u2009\'\u2019')
_CURRENCY = re.compile(r'^(?:[€$£]|EUR|USD|GBP|CHF|PLN|zł)|(?:[€$£]|EUR|USD|GBP|CHF|PLN|zł)$')


@contextmanager
def _opened(file: Lines) -> Iterator[Iterable[str]]:
    """The lines of a file that is open, or of the file at a path."""
    if isinstance(file, (str, bytes)):
        raise TypeError('give the path of a file as a pathlib.Path, an open file, or a list of its lines')
    if not isinstance(file, os.PathLike):
        yield file
        return
    with open(file, encoding='utf-8-sig', newline='') as lines:
        try:
            yield lines
        except UnicodeDecodeError:
            raise ValueError(f'{os.fspath(file)} is no UTF-8: save it as CSV UTF-8') from None


def _rows(lines: List[str], between: str) -> Rows:
    """The lines with something in them, as values, each with its number."""
    reader = csv.reader(lines, delimiter=between)
    return [(reader.line_num, [value.strip() for value in row]) for row in reader if any(value.strip() for value in row)]


def _parted(lines: List[str]) -> Tuple[str, Rows]:
    """What stands between the values, and the values: the first mark with which all lines have as many as the first, or else most in the first."""
    found = [(between, _rows(lines, between)) for between in BETWEEN]
    for between, rows in found:
        if len(rows[0][1]) > 1 and all(len(row) == len(rows[0][1]) for _, row in rows):
            return between, rows
    return max(found, key=lambda each: len(each[1][0][1]))


def _mark(between: str, rows: Rows) -> str:
    """The mark before decimals: a comma if no comma stands between values and one stands anywhere as if before decimals, and otherwise a point."""
    if between == ',':
        return '.'
    said = [value for _, row in rows[1:] for value in row[1:]]
    points = any(re.search(r'\.\d{1,2}\D*$', value) for value in said)
    return '.' if points and not any(re.search(r',\d{1,2}\D*$', value) for value in said) else ','


def _number(value: str, mark: str) -> Union[int, Decimal]:
    """The number that a value says: a whole one, or a Decimal if it has decimals."""
    other = ',' if mark == '.' else '.'
    said = _CURRENCY.sub('', value.translate(_SPACES)).replace('\u2212', '-')
    if not re.fullmatch(rf'[-+]?(\d+|\d{{1,3}}(\{other}\d{{3}})+)(\{mark}\d{{1,2}})?', said):
        raise ValueError(f'{value!r} is no number of points, and no amount with at most two places')
    plain = said.replace(other, '').replace(mark, '.')
    return Decimal(plain) if '.' in plain else int(plain)


def _row(line: int, row: List[str], columns: List[str], mark: str) -> Optional[List[Any]]:
    """The numbers of one line, or None if there are none."""
    values = row[1:]
    if not any(values):
        return None
    if len(values) != len(columns):
        raise ValueError(f'line {line}: {row[0]} has {len(values)} values, and there are {len(columns)} columns')
    found = []
    for column, value in zip(columns, values):
        if not value:
            raise ValueError(f'line {line}: {row[0]} has no number for {column}')
        try:
            found.append(_number(value, mark))
        except ValueError as error:
            raise ValueError(f'line {line}: {row[0]}, {column}: {error}') from None
    return found


def _without_empty_columns(rows: Rows) -> Rows:
    """The rows without columns at the end in which nothing stands, as some spreadsheets write them."""
    width = max((place + 1 for _, row in rows for place, value in enumerate(row) if value), default=0)
    return [(line, row[:width] if len(row) > width else row) for line, row in rows]


def read_table(file: Lines) -> Table[str, str]:
    """Read a table as spreadsheets write it.

    The first line names the columns, behind an empty value or any word. Each other line has a member and their numbers; a member without any number has not
    bid. Commas, semicolons or tabs stand between the values.

    Parameters
    ----------
    file : path or iterable of str
        The path of a file in UTF-8, an open file, or its lines.

    Returns
    -------
    Table
        Whole numbers, or Decimals if any number has decimals.

    Raises
    ------
    ValueError
        If a line has too few or too many values, one is no number, or some of a member's numbers are missing. The error names the line.
    TypeError
        If it is given as one string.

    Examples
    --------
    >>> import fairsplit
    >>> fairsplit.read_table([';Attic;Back', 'Ann;600,50;299,50', 'Ben;;']).rows
    ([Decimal('600.50'), Decimal('299.50')], None)
    """
    with _opened(file) as lines:
        said = [line.lstrip('\ufeff') if number == 0 else line for number, line in enumerate(lines)]
    if not any(line.strip() for line in said):
        raise ValueError('there is nothing in the table')
    first = re.fullmatch(r'sep=(.)\s*', said[0])
    between, rows = (first[1], _rows(['', *said[1:]], first[1])) if first else _parted(said)
    (_, (_, *columns)), *others = _without_empty_columns(rows)
    mark = _mark(between, rows)
    numbers = [_row(line, row, columns, mark) for line, row in others]
    if any(isinstance(number, Decimal) for row in numbers if row for number in row):  # one sort of amounts: all with decimals, or none
        numbers = [None if row is None else [Decimal(number) for number in row] for row in numbers]
    return Table(tuple(row[0] for _, row in others), tuple(columns), tuple(numbers))
