"""Divisions that somebody proposes, judged, and compared with what plain enumeration says."""
import itertools
import unittest
from decimal import Decimal
from fractions import Fraction

import fairsplit
from common import LEGS, flat, heirs
from fairsplit import draw

DRAWS = 30


def envies_beyond_one(row, own, other):
    """Whether somebody with these points envies another's goods, whichever of them is taken away."""
    have, there = sum(row[good] for good in own), [row[good] for good in other]
    return sum(there) > have and all(sum(there) - each > have for each in there)


class Goods(unittest.TestCase):
    def test_a_best_division(self):
        audit = fairsplit.audit_goods(heirs(), ['Ada', 'Cleo', 'Bo', 'Cleo', 'Bo'])
        self.assertEqual((audit.envy_free, audit.envious, audit.ef1, audit.beyond_one, audit.pareto, audit.dominating), (True, None, True, None, True, None))
        self.assertEqual((audit.envy, audit.positive, audit.product), (fairsplit.goods(heirs()).envy, 3, 104_000_000))
        self.assertEqual((audit['Cleo'].goods, audit['Cleo'].points), (('Clock', 'Ring'), 400))

    def test_a_worse_division_has_witnesses(self):
        audit = fairsplit.audit_goods(heirs(), {'Piano': 'Bo', 'Clock': 'Cleo', 'Car': 'Ada', 'Ring': 'Cleo', 'Paintings': 'Bo'})
        self.assertEqual((audit.envy_free, audit.pareto, len(audit.dominating)), (False, False, 5))
        self.assertEqual(audit.envious[:2], ('Ada', 'Bo'))
        self.assertIn(('Ada', 'Bo', 'Piano'), audit.up_to_one)
        audit = fairsplit.audit_goods({'A': {'x': 500, 'y': 500}, 'B': {'x': 500, 'y': 500}}, {'x': 'A', 'y': 'A'})
        self.assertEqual((audit.ef1, audit.beyond_one), (False, ('B', 'A')))

    def test_as_plain_enumeration_says(self):
        for seed in range(DRAWS):
            bids, players = draw.goods(2 + seed % 2, 4, seed=seed, step=[1, 100][seed % 2]), range(2 + seed % 2)
            owners = [(seed * 7 + good * good) % len(bids) for good in range(4)]
            audit = fairsplit.audit_goods(bids, [owner + 1 for owner in owners])
            got = [[good for good in range(4) if owners[good] == player] for player in players]
            beyond = [pair for pair in itertools.permutations(players, 2) if envies_beyond_one(bids[pair[0]], got[pair[0]], got[pair[1]])]
            self.assertEqual((audit.ef1, audit.beyond_one), (not beyond, tuple(place + 1 for place in beyond[0]) if beyond else None))

            def worth(others):
                return [sum(bids[player][good] for good in range(4) if others[good] == player) for player in players]

            better = [others for others in itertools.product(players, repeat=4)
                      if worth(others) != worth(owners) and all(map(int.__ge__, worth(others), worth(owners)))]
            self.assertEqual(audit.pareto, not better, seed)
            if better:
                self.assertIn(tuple(owner - 1 for owner in audit.dominating), better)


class Rents(unittest.TestCase):
    def test_the_best_division_passes(self):
        best = fairsplit.rent(900, flat())
        audit = fairsplit.audit_rent(900, flat(), {share.member: share.room for share in best}, {share.room: share.price for share in best})
        self.assertTrue(audit.adds_up and audit.envy_free and audit.pareto and audit.maximin)
        self.assertEqual((audit.envy, audit.best, audit.utilities), (best.envy, best, tuple(share.utility for share in best)))

    def test_other_divisions_have_witnesses(self):
        rooms = {'Ann': 'Attic', 'Ben': 'Back', 'Cy': 'Cellar'}
        audit = fairsplit.audit_rent(900, flat(), rooms, {'Cellar': 300, 'Back': 300, 'Attic': 300})
        self.assertEqual((audit.adds_up, audit.envy_free, audit.envious, audit.pareto, audit.maximin), (True, False, ('Ben', 'Ann', 500), True, False))
        self.assertFalse(fairsplit.audit_rent(900, flat(), rooms, [700, 100, 101]).adds_up)
        audit = fairsplit.audit_rent(900, flat(), ['Back', 'Attic', 'Cellar'], [Fraction(2000, 3), 100, Fraction(400, 3)])
        self.assertEqual((audit.sum, audit.pareto, audit.welfare_lost), (900, False, 200))
        audit = fairsplit.audit_rent(900, flat(), ['Cellar', 'Back', 'Attic'], [700, 100, 100])
        self.assertEqual((audit.pareto, audit.welfare_lost), (False, 800))

    def test_names_and_units(self):
        bids = {'Ann': [Decimal('6.00'), Decimal('3')], 'Ben': [Decimal('5.0'), Decimal('4')]}
        audit = fairsplit.audit_rent(Decimal(9), bids, [1, 2], [Decimal('6.5'), Decimal('2.5')])
        self.assertEqual((audit.envious, audit.adds_up), (('Ann', 'Ben', 1), True))
        for rooms, prices in (([1, 1], [5, 4]), ([1, 3], [5, 4]), ({'Ann': 1, 'Cy': 2}, [5, 4]), ([1, 2], {1: 5, 3: 4}), ([1, 2], [9])):
            with self.assertRaises(ValueError):
                fairsplit.audit_rent(Decimal(9), bids, rooms, prices)
        with self.assertRaises(TypeError):
            fairsplit.audit_rent(Decimal(9), bids, [1, 2], [6.5, 2.5])

    def test_as_plain_enumeration_says(self):
        for seed in range(DRAWS):
            total, bids = draw.rent(3, seed=seed, total=30)
            most = max(sum(row[room] for row, room in zip(bids, rooms)) for rooms in itertools.permutations(range(3)))
            for rooms in itertools.permutations(range(3)):
                audit = fairsplit.audit_rent(total, bids, [room + 1 for room in rooms], [10, 10, 10])
                self.assertEqual(audit.welfare_lost, most - sum(row[room] for row, room in zip(bids, rooms)))


class Fares(unittest.TestCase):
    def test_the_shapley_shares_pass(self):
        audit = fairsplit.audit_fares(300, LEGS, {'Ann': 1, 'Ben': 2}, {'Ben': 1250, 'Ann': 750})
        self.assertTrue(audit.adds_up and audit.core and audit.shapley)
        self.assertEqual((audit.cost, audit.excess, audit.overcharged), (2000, 0, None))

    def test_other_fares_have_witnesses(self):
        audit = fairsplit.audit_fares(300, LEGS, {'Ann': 1, 'Ben': 2}, [1400, 600])
        self.assertEqual((audit.adds_up, audit.core, audit.overcharged, audit.excess, audit.shapley), (True, False, ('Ann',), 100, False))
        audit = fairsplit.audit_fares(300, LEGS, {'Ann': 1, 'Ben': 2}, [1000, 1001])
        self.assertEqual((audit.adds_up, audit.overcharged, audit.excess), (False, ('Ann', 'Ben'), 1))
        with self.assertRaises(ValueError):
            fairsplit.audit_fares(300, LEGS, {'Ann': 1, 'Ben': 2}, {'Ann': 1000, 'Cy': 1000})

    def test_as_plain_enumeration_says(self):
        for seed in range(DRAWS):
            flag, legs, stops = draw.fares(3, 3, seed=seed)
            fares = fairsplit.fares(flag, legs, stops)
            paid = [fares.total - 200, 100, 100]

            def cost(some):
                return min(flag + legs[0][order[0] - 1] + sum(legs[one][other - 1] for one, other in zip(order, order[1:]))
                           for order in itertools.permutations([stops[rider] for rider in some]))

            over = max(sum(paid[rider] for rider in some) - cost(some) for size in (1, 2, 3) for some in itertools.combinations(range(3), size))
            self.assertEqual(fairsplit.audit_fares(flag, legs, stops, paid).excess, max(over, 0))


if __name__ == '__main__':
    unittest.main()
