"""Certificates that are read: judged first, and then the division that they came from."""
import unittest
from decimal import Decimal

import fairsplit
from common import EXAMPLES, LEGS, example, flat, text
from fairsplit import BrokenRule, Refused, draw


class Reading(unittest.TestCase):
    def test_what_was_divided_is_read(self):
        division = fairsplit.rent(900, flat())
        self.assertEqual(fairsplit.read(division.text, members=['Ann', 'Ben', 'Cy'], rooms=['Attic', 'Back', 'Cellar']), division)
        division = fairsplit.goods({'A': {'x': 400, 'y': 600}, 'B': None, 'C': {'y': 300, 'x': 700}})
        again = fairsplit.read(division.text, members='ABC', goods='xy')
        self.assertEqual((again, again.envy), (division, division.envy))
        division = fairsplit.fares(300, LEGS, [2, None, 1], members=['A', 'B', 'C'], places=[1, 2])
        self.assertEqual(fairsplit.read(division.text, members=['A', 'B', 'C']), division)
        case = example('attic-for-two')
        division = fairsplit.winner(case['bids'], members=case['members'], goods=case['goods'])
        self.assertEqual(fairsplit.read(division.text.encode(), members=case['members'], goods=case['goods']), division)

    def test_drawn_cases(self):
        for seed in range(30):
            rows = draw.goods(2 + seed % 3, 5, seed=seed)
            for division in (fairsplit.rent(*draw.rent(2 + seed % 4, seed=seed)), fairsplit.goods([*rows[:1], None, *rows[1:]]),
                             fairsplit.fares(*draw.fares(3, 3, seed=seed))):
                self.assertEqual(fairsplit.read(division.text), division)

    def test_each_example(self):
        for path in EXAMPLES.glob('*.txt'):
            if path.read_text().startswith(('fairsplit 1\n', 'fairsplit 2\n', 'fairsplit pair')):
                self.assertEqual(fairsplit.read(path).text, path.read_text())

    def test_names_are_the_numbers_of_the_text(self):
        self.assertEqual([share.member for share in fairsplit.read(text('three-heirs'))], [1, 2, 3])
        self.assertEqual(fairsplit.read(text('three-heirs')).report.splitlines()[1], 'players 3 of 3')

    def test_a_text_that_shows_nothing_is_not_read(self):
        with self.assertRaises(BrokenRule) as caught:
            fairsplit.read(text('flat-for-three').replace('prices 700 100 100', 'prices 699 101 100'))
        self.assertEqual((caught.exception.rule, caught.exception.status), (7, 1))
        for wrong in ('', 'hello', text('flat-for-three')[:-4], text('flat-for-three') + '\n', '\ud800', '\udc80'):
            with self.assertRaises(Refused):
                fairsplit.read(wrong)
        with self.assertRaises(TypeError):
            fairsplit.read(5)

    def test_names_have_to_fit(self):
        for names in ({'members': ['Ann', 'Ben']}, {'rooms': ['Attic']}, {'goods': ['Attic', 'Back', 'Cellar']}):
            with self.assertRaises(ValueError):
                fairsplit.read(text('flat-for-three'), **names)
        with self.assertRaises(ValueError):
            fairsplit.read(text('three-heirs'), members=['Ada'])

    def test_amounts_are_cents(self):
        bids = [[Decimal('6.00'), Decimal('3')], [Decimal('5.0'), Decimal('4')]]
        self.assertEqual(fairsplit.read(fairsplit.rent(Decimal(9), bids).text)[1].pays, 550)


if __name__ == '__main__':
    unittest.main()
