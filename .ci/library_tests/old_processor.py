#!/usr/bin/env python3
"""Calls each function of the shared object once, so that a processor that lacks an instruction of it ends this by a signal."""
import fairsplit
from fairsplit import draw, numbers

rents, goods, estate = draw.rent(5, seed=1), draw.goods(3, 8, seed=1), fairsplit.goods(draw.goods(4, 18, seed=1))
divisions = [fairsplit.rent(*rents), fairsplit.goods(goods), fairsplit.fares(*draw.fares(5, 5, seed=1)), fairsplit.winner(goods[:2])]
assert all(fairsplit.read(division.text) == division for division in divisions)
assert all(division.report for division in divisions[:3])
assert fairsplit.weigh(goods, divisions[1].owners).pareto
assert numbers.rent_cents(*rents)[0] == 0
assert estate.text.startswith('fairsplit 2') and fairsplit.read(estate.text) == estate
