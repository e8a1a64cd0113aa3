"""Prints the division of a table, as a report: `python -m fairsplit FILE.csv` divides goods, and `--rent TOTAL` a rent."""
from __future__ import annotations

import argparse
import sys
from decimal import Decimal
from pathlib import Path
from typing import List, Optional, Union

from . import FairsplitError, GoodsDivision, OverLimit, RentDivision, Table, __version__, goods, read_table, rent, scaled


def _words(arguments: Optional[List[str]]) -> argparse.Namespace:
    parser = argparse.ArgumentParser(prog='python -m fairsplit', description='Divides what a table says, and prints the report or the certificate.')
    parser.add_argument('file', type=Path, help='a table: the first line names the goods or rooms, each other line a member with their numbers')
    parser.add_argument('--rent', metavar='TOTAL', help='the rent, such as 900 or 900.50: the table has what each room is worth to each member')
    parser.add_argument('--scale', action='store_true', help='scale the points of each member to 1000 first')
    parser.add_argument('--steps', type=int, help='how many steps the search for estates may take, if the first search takes too many; without it 20000')
    parser.add_argument('--certificate', action='store_true', help='print the certificate instead of the report')
    parser.add_argument('--version', action='version', version=__version__)
    return parser.parse_args(arguments)


def _divided(table: Table[str, str], words: argparse.Namespace) -> Union[RentDivision[str, str], GoodsDivision[str, str]]:
    if words.rent is None:
        return goods(scaled(table).table if words.scale else table, steps=words.steps)
    has_decimals = '.' in words.rent or any(isinstance(number, Decimal) for row in table.rows if row for number in row)
    if not has_decimals:
        return rent(int(words.rent), table)
    return rent(Decimal(words.rent), Table(table.members, table.columns, tuple(row and [Decimal(number) for number in row] for row in table.rows)))


def main(arguments: Optional[List[str]] = None) -> int:
    """The status, after the division was printed."""
    words = _words(arguments)
    try:
        division = _divided(read_table(words.file), words)
        print(division.text if words.certificate else division.report, end='')
    except FairsplitError as error:
        if isinstance(error, OverLimit) and error.best and not words.certificate:
            print(error.best.report, end='')
        said = str(error).replace('fairsplit.scaled makes', '--scale makes')  # what helps at the command line
        print(f'fairsplit: {said}', file=sys.stderr)
        return error.status
    except (OSError, ArithmeticError, TypeError, ValueError) as error:
        print(f'fairsplit: {error}', file=sys.stderr)
        return 2
    return 0


if __name__ == '__main__':
    sys.exit(main())
