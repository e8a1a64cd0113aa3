"""What errors say: who, where and how much."""
import unittest
from decimal import Decimal

import fairsplit
from fairsplit import Refused

TWO = {'Ann': {'Attic': 600, 'Back': 300}, 'Ben': {'Attic': 501, 'Back': 400}}
LEGS = [[1000, 1500], [0, 700], [900, 0]]


class Messages(unittest.TestCase):
    def assert_says(self, said, call, *arguments, **names):
        """A call is refused with this message, and still has the field of the command line."""
        with self.assertRaises(Refused) as caught:
            call(*arguments, **names)
        self.assertEqual((str(caught.exception), caught.exception.status), (said, 3))
        self.assertEqual(caught.exception.said, f'refused: field {caught.exception.field}')

    def test_rents(self):
        for said, total, bids in (
                ("Ben's bids add up to 901, not 900", 900, TWO),
                ("member 2's row has 1 number for 2 rooms", 900, [[600, 300], [900]]),
                ("member 1's bid for room 1 is -100, which is below 0", 900, [[-100, 1000], [500, 400]]),
                ('3 rooms for 2 members', 900, [[300, 300, 300], [300, 300, 300]]),
                ('1 member; a rent is divided between 2 to 12', 900, [[900]]),
                ('the rent is a number of more than 15 digits; it may be from 1 to 10000000', 10 ** 5000, [[1, 1], [1, 1]]),
                ('the rent is 0; it may be from 1 to 10000000', 0, [[0, 0], [0, 0]])):
            self.assert_says(said, fairsplit.rent, total, bids)

    def test_amounts_are_in_the_unit_of_the_caller(self):
        bids = {'Ann': [Decimal('6.00'), Decimal('3')], 'Ben': [Decimal('5.01'), Decimal('4')]}
        self.assert_says("Ben's bids add up to 9.01, not 9.00", fairsplit.rent, Decimal(9), bids)
        self.assert_says('the rent is 0.00; it may be from 0.01 to 100000.00', fairsplit.rent, Decimal(0), bids)

    def test_goods(self):
        for said, bids, limit in (
                ("Ann's points add up to 100, not 1000; fairsplit.scaled makes points add up", {'Ann': [60, 40], 'Ben': [500, 500]}, None),
                ("Ben's row has 3 numbers for 2 goods", {'Ann': [600, 400], 'Ben': [500, 500, 0]}, None),
                ('25 goods; there may be 1 to 24: put small ones together', [[40] * 25] * 2, None),
                ('13 members; goods are divided between 2 to 12', [[1000]] * 13, None),
                ('the limit is 200001; it may be from 1 to 200000', [[1000], [1000]], 200_001)):
            self.assert_says(said, fairsplit.goods, bids, limit=limit)

    def test_audits_and_adjusted_winner_say_it_too(self):
        said = "Ann's points add up to 100, not 1000; fairsplit.scaled makes points add up"
        self.assert_says(said, fairsplit.weigh, {'Ann': [60, 40], 'Ben': [500, 500]}, ['Ann', 'Ben'])
        self.assert_says(said, fairsplit.winner, {'Ann': [60, 40], 'Ben': [500, 500]})

    def test_fares(self):
        for said, flag, legs, bids, names in (
                ('2 rows of legs for 2 places: give one from the origin and one from each place', 0, LEGS[:2], [1, 2], {}),
                ('the row of legs from place 2 has 1 number for 2 places', 0, [*LEGS[:2], [900]], [1, 2], {}),
                ('the leg from place 1 to itself is 5, and has to be 0', 0, [LEGS[0], [5, 700], LEGS[2]], [1, 2], {}),
                ('the leg from the origin to place 2 is -1; it may be from 0 to 1000000', 0, [[1000, -1], *LEGS[1:]], [1, 2], {}),
                ('the flag fall is -1; it may be from 0 to 1000000', -1, LEGS, [1, 2], {}),
                ('3 bids for 2 members', 0, LEGS, [1, 2, 1], {'members': ['A', 'B']}),
                ('11 members; a fare is shared by 2 to 10', 0, LEGS, [1] * 11, {}),
                ('0 places; there may be 1 to 12', 0, [[], []], [None, None], {})):
            self.assert_says(said, fairsplit.fares, flag, legs, bids, **names)

    def test_which_number_is_none(self):
        for said, bids in (('Ben, Back: 400.5 is no whole number: give an int', {**TWO, 'Ben': {'Attic': 500, 'Back': 400.5}}),
                           ('member 1, room 2: .300. is no whole number: give an int', [[600, '300'], [500, 400]]),
                           ('member 2, number 3: there is no number', [[600, 300], [500, 400, None]])):
            with self.assertRaisesRegex((TypeError, ValueError), said):
                fairsplit.rent(900, bids)


if __name__ == '__main__':
    unittest.main()
