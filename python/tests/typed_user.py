"""A user's file for the type checker, which has to find each wrong call below and nothing else: an ignored error that is none is an error itself."""
from __future__ import annotations

from decimal import Decimal
from fractions import Fraction
from typing import Any, Dict, List, Optional, Tuple

import fairsplit

BIDS: Dict[str, Dict[str, int]] = {'Ann': {'Attic': 600, 'Back': 300}, 'Ben': {'Attic': 500, 'Back': 400}}
SOME: Dict[str, Optional[List[int]]] = {'Ann': [600, 400], 'Ben': None}

by_name: fairsplit.RentDivision[str, str] = fairsplit.rent(900, BIDS)
names: List[str] = [share.member for share in by_name.shares]
room: str = by_name['Ann'].room
price: Fraction = by_name['Ann'].price
whole: int = sum(int(share.pays) for share in by_name)
envy: Tuple[Tuple[Fraction, ...], ...] = by_name.envy

by_number: fairsplit.RentDivision[int, int] = fairsplit.rent(900, [[600, 300], [500, 400]])
numbers: List[int] = [share.room for share in by_number]
named: fairsplit.RentDivision[str, str] = fairsplit.rent(Decimal(9), [[Decimal(6), Decimal(3)], [Decimal(5), Decimal(4)]], members=['A', 'B'], rooms=['x', 'y'])
half: fairsplit.RentDivision[str, int] = fairsplit.rent(900, {'Ann': [600, 300], 'Ben': [500, 400]})

goods: fairsplit.GoodsDivision[str, int] = fairsplit.goods(SOME, limit=1000)
owners: Tuple[str, ...] = goods.owners
further: fairsplit.GoodsDivision[str, str] = fairsplit.goods(BIDS, steps=1_000_000)
found: Optional[fairsplit.FoundDivision[Any, Any]] = fairsplit.OverLimit(20_000).best
table: fairsplit.Table[str, str] = fairsplit.read_table([',x', 'Ann,1000', 'Ben,1000'])
of_table: fairsplit.GoodsDivision[str, str] = fairsplit.goods(table)
scaled: fairsplit.Scaled[str, str] = fairsplit.scaled(BIDS)
fares: fairsplit.FareDivision[str, str] = fairsplit.fares(300, [[1000, 1500], [0, 700], [900, 0]], {'Ann': 'x', 'Ben': 'y'}, places=['x', 'y'])
route: Tuple[str, ...] = fares.route
audit: fairsplit.GoodsAudit[str, str] = fairsplit.audit_goods(BIDS, {'Attic': 'Ann', 'Back': 'Ben'})
envious: Optional[Tuple[str, str, int]] = audit.envious
drawn: fairsplit.GoodsDivision[int, int] = fairsplit.goods(fairsplit.draw.goods(3, 5, seed=1))

fairsplit.rent(900.0, BIDS)  # type: ignore[call-overload]
fairsplit.rent(900, [[600.0, 300], [500, 400]])  # type: ignore[list-item]
fairsplit.goods({'Ann': {'x': '1000'}})  # type: ignore[arg-type]
fairsplit.check(5)  # type: ignore[arg-type]
wrong: int = by_name['Ann'].room  # type: ignore[assignment]
