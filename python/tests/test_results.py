"""What all divisions can do: shares by name, records, frames and pictures, in the caller's unit."""
import copy
import dataclasses
import json
import pickle
import unittest
import xml.etree.ElementTree
from decimal import Decimal
from fractions import Fraction

import fairsplit
from common import LEGS, example, flat, heirs

try:
    import pandas
except ImportError:
    pandas = None


def divisions():
    """A division of each kind."""
    case = example('attic-for-two')
    return [fairsplit.rent(900, flat()), fairsplit.goods(heirs()), fairsplit.fares(300, LEGS, {'Ann': 1, 'Ben': 2}),
            fairsplit.winner(case['bids'], members=case['members'], goods=case['goods'])]


class Results(unittest.TestCase):
    def test_shares_by_name_and_in_order(self):
        for division in divisions():
            self.assertEqual([division[share.member] for share in division], list(division.shares))
            self.assertEqual(len(division), len(division.shares))
            with self.assertRaisesRegex(KeyError, 'Zoe'):
                division['Zoe']
        with self.assertRaisesRegex(KeyError, 'more than one'):
            fairsplit.rent(900, [[600, 300], [500, 400]], members=['Kim', 'Kim'])['Kim']

    def test_records_are_json(self):
        for division in divisions():
            again = json.loads(json.dumps(division.records()))
            self.assertEqual([row['member'] for row in again], [share.member for share in division])
        division = fairsplit.rent(Decimal('10.01'), [[Decimal('6.01'), Decimal(4)], [Decimal(5), Decimal('5.01')]], members=[('a', 1), None])
        self.assertEqual(division.records()[0], {'member': ['a', 1], 'room': 1, 'price': '1101/200', 'pays': '5.51', 'utility': '101/200'})

    def test_a_repr_is_short(self):
        for division in divisions():
            self.assertNotIn('fairsplit ', repr(division))
        big = fairsplit.goods([[125] * 8, [125] * 8, [125] * 8])
        self.assertLess(len(repr(big)), 1000)

    def test_nothing_private_is_among_the_fields(self):
        for division in divisions():
            self.assertEqual([name for name in dataclasses.asdict(division) if name.startswith('_')], [])
            self.assertEqual(copy.deepcopy(division), division)
            self.assertEqual(pickle.loads(pickle.dumps(division)), division)
            self.assertIsInstance(hash(division), int)

    def test_envy_is_made_when_it_is_asked_for(self):
        division = fairsplit.rent(900, flat())
        self.assertNotIn('envy', vars(division))
        self.assertEqual(division.envy, ((0, -100, -200), (-100, 0, -200), (-600, 0, 0)))

    def test_envy_of_rooms_with_one_name(self):
        bids = [[600, 300, 0], [500, 400, 0], [300, 300, 300]]
        self.assertEqual(fairsplit.rent(900, bids, rooms=['r', 'r', 'r']).envy, fairsplit.rent(900, bids).envy)

    def test_decimals_in_decimals_out(self):
        legs = [[Decimal('10.00'), Decimal(15)], [Decimal(0), Decimal(7)], [Decimal(9), Decimal(0)]]
        division = fairsplit.fares(Decimal(3), legs, [1, 2])
        self.assertEqual([(share.fare, share.pays, share.alone) for share in division], [(Fraction(15, 2), Decimal('7.50'), 13), (Fraction(25, 2), Decimal('12.50'), 18)])
        self.assertEqual((division.total, type(division.total)), (20, Decimal))

    def test_html_has_a_table_and_a_picture(self):
        for division in divisions():
            page = xml.etree.ElementTree.fromstring(f'<div>{division._repr_html_()}</div>')
            self.assertEqual(len(page.findall('table/tbody/tr')), len(division))
        page = xml.etree.ElementTree.fromstring(f'<div>{divisions()[0]._repr_html_()}</div>')
        self.assertEqual(len(page.findall('.//{http://www.w3.org/2000/svg}rect')), 9)
        self.assertNotIn('<b>', fairsplit.rent(900, {'<b>': [600, 300], '&': [500, 400]})._repr_html_())

    @unittest.skipUnless(pandas, 'pandas is not installed')
    def test_a_frame_has_numbers(self):
        frame = fairsplit.rent(1001, example('odd-rent')['bids'], members=['Ann', 'Ben']).to_frame()
        self.assertEqual((frame['price'].dtype.kind, frame['pays'].dtype.kind), ('f', 'i'))
        self.assertEqual((frame.loc['Ann', 'price'], frame.loc['Ann', 'price_exact']), (550.5, Fraction(1101, 2)))
        self.assertEqual(frame['pays'].sum(), 1001)
        for division in divisions():
            self.assertEqual(list(division.to_frame().index), [share.member for share in division])


if __name__ == '__main__':
    unittest.main()
