"""Fair divisions by proved code.

    rent(total, bids)                    envy-free rents with the greatest least utility (Gal, Mash, Procaccia and Zick 2016)
    goods(bids)                          the division with the greatest Nash welfare (Caragiannis and others 2016), of up to 24 goods
    fares(flag, legs, bids)              the Shapley shares of the cheapest route (Shapley 1953)
    winner(bids)                         adjusted winner between two members (Brams and Taylor 1996)
    audit_rent, audit_goods, audit_fares what is said of a division that somebody else proposes
    check(text), check_winner(text)      the verdict on a certificate, and on the text of adjusted winner
    read(text)                           a certificate as a division, judged first
    scaled(points), read_table(file)     points that add up to 1000, and tables of spreadsheets
    draw.goods(...), numbers.rent(...)   cases drawn at random, and the solvers of whole numbers

Bids are a mapping of mappings (member, then room or good), rows of numbers, a NumPy array, a pandas frame or series, or a Table that `read_table` reads.
What has a name goes by its name. `members=`, `rooms=`, `goods=` and `places=` name what has no names, and say the order of what has; without names
members and columns are the numbers from 1. A name may be anything, and may occur twice. A member who has not bid has None, or a row without any number.

Money is whole cents (`int`), or a `Decimal` with at most two places; a `float` is a TypeError. Amounts in results are in the same unit: exact ones are
a `Fraction`, and what somebody pays is an `int` or a `Decimal`.

What the library answers to its bytes and numbers is proved: each text, each status, and that a verdict that holds shows the best division. This package,
which makes them from your values and reads the texts, is tested and not proved.
"""
from __future__ import annotations

from . import draw, numbers
from ._amounts import Amount
from ._audits import FareAudit, GoodsAudit, RentAudit
from ._dividing import fares, goods, rent, winner
from ._divisions import FareDivision, FareShare, FoundDivision, GoodsDivision, GoodsShare, PairDivision, PairShare, RentDivision, RentShare, Verdict
from ._errors import BrokenRule, FairsplitError, NotTwo, OutOfMemory, OverLimit, Refused, Void
from ._files import read_table
from ._judging import audit_fares, audit_goods, audit_rent, check, check_winner, weigh
from ._library import run
from ._reading import AnyDivision, read
from ._results import Division
from ._scaling import Scaled, scaled
from ._tables import Table
from ._version import __version__

__all__ = ['Amount', 'AnyDivision', 'BrokenRule', 'Division', 'FairsplitError', 'FareAudit', 'FareDivision', 'FareShare', 'FoundDivision', 'GoodsAudit',
           'GoodsDivision', 'GoodsShare', 'NotTwo', 'OutOfMemory', 'OverLimit', 'PairDivision', 'PairShare', 'Refused', 'RentAudit', 'RentDivision',
           'RentShare', 'Scaled', 'Table', 'Verdict', 'Void', '__version__', 'audit_fares', 'audit_goods', 'audit_rent', 'check', 'check_winner', 'draw',
           'fares', 'goods', 'numbers', 'read', 'read_table', 'rent', 'run', 'scaled', 'weigh', 'winner']
