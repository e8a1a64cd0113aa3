"""Tests of the divisions over the real library. They run where the package is installed:

    python -m unittest discover -s python/tests

What is due for the examples is in examples/, as for the command line.
"""
import json
import unittest
from decimal import Decimal, localcontext
from fractions import Fraction

import fairsplit
from common import EXAMPLES, LEGS, example, flat, heirs, names, refusal, refused, report_of, text
from fairsplit import NotTwo, OverLimit, Refused, Void


class Rents(unittest.TestCase):
    def test_the_flat_of_the_examples(self):
        division = fairsplit.rent(900, flat())
        self.assertEqual(division.text, text('flat-for-three'))
        self.assertEqual([(share.member, share.room, share.price, share.pays, share.utility) for share in division.shares],
                         [('Ann', 'Attic', 700, 700, 100), ('Ben', 'Back', 100, 100, 100), ('Cy', 'Cellar', 100, 100, 200)])
        self.assertEqual(division.least_utility, 100)
        self.assertEqual(division.envy, ((0, -100, -200), (-100, 0, -200), (-600, 0, 0)))
        self.assertEqual(division.members, ('Ann', 'Ben', 'Cy'))

    def test_half_cents_are_exact_and_whole_cents_add_up(self):
        case = example('odd-rent')
        division = fairsplit.rent(case['rent'], case['bids'])
        self.assertEqual(division.shares[0].price, Fraction(1101, 2))
        self.assertEqual(sum(share.pays for share in division.shares), case['rent'])
        self.assertEqual(division.shares[0].member, 1)

    def test_money_as_decimal(self):
        bids = [[Decimal('6.00'), Decimal('3')], [Decimal('5.0'), Decimal('4')]]
        division = fairsplit.rent(Decimal(9), bids)
        self.assertEqual([(share.price, share.pays, share.utility) for share in division],
                         [(Fraction(11, 2), Decimal('5.50'), Fraction(1, 2)), (Fraction(7, 2), Decimal('3.50'), Fraction(1, 2))])
        self.assertEqual((str(division.shares[0].pays), division.envy, division.least_utility), ('5.50', ((0, -1), (-1, 0)), Fraction(1, 2)))
        with self.assertRaises(ValueError):
            fairsplit.rent(Decimal('9.001'), bids)
        with self.assertRaises(TypeError):
            fairsplit.rent(900, bids)

    def test_decimals_are_exact_in_any_context(self):
        with localcontext() as context:
            context.prec = 3
            division = fairsplit.rent(Decimal('1234.56'), [[Decimal('1000.55'), Decimal('234.01')], [Decimal('1234.56'), Decimal('0')]])
        self.assertEqual(sum(share.pays for share in division.shares), Decimal('1234.56'))
        self.assertEqual(refusal(lambda: fairsplit.rent(Decimal('1e40'), [[Decimal(1), Decimal(1)]] * 2)), refused('rent'))
        for amount in (Decimal('NaN'), Decimal('-Infinity')):
            with self.assertRaises(ValueError):
                fairsplit.rent(amount, [[Decimal(1), Decimal(1)]] * 2)

    def test_a_float_is_no_amount(self):
        for total, bid in ((900.0, 600), (900, 600.0), (True, 600), ('900', 600)):
            with self.assertRaises(TypeError):
                fairsplit.rent(total, [[bid, 300], [500, 400]])

    def test_names_may_repeat_and_be_anything(self):
        division = fairsplit.rent(900, [[600, 300], [500, 400]], members=['Kim', 'Kim'], rooms=['a room with a name of more than forty bytes', ('r', 2)])
        self.assertEqual([share.member for share in division.shares], ['Kim', 'Kim'])
        self.assertEqual(division.shares[1].room, ('r', 2))

    def test_a_missing_bid_is_named(self):
        with self.assertRaises(Void) as caught:
            fairsplit.rent(900, {'Ann': {'Attic': 600, 'Back': 300}, 'Ben': None})
        self.assertEqual((caught.exception.missing, caught.exception.status), (('Ben',), 1))

    def test_a_refused_field_is_named(self):
        with self.assertRaises(Refused) as caught:
            fairsplit.rent(900, [[600, 301], [500, 400]])
        self.assertEqual((caught.exception.status, caught.exception.field, caught.exception.line), (3, 'bids', None))

    def test_the_first_field_that_breaks_its_rule_is_named(self):
        for field, total, bids in (
                ('members', 0, [[1, 2]]), ('members', 0, []), ('members', 900, [[900] + 12 * [0]] * 13),
                ('rooms', 0, [[600, 300, 0], [1, 2, 3]]), ('rooms', 900, [None, None]),
                ('rent', 0, [[1, 2], None]), ('rent', 1 << 32, [[1, 2], [3, 4]]), ('rent', -900, [[-900, 0], [-900, 0]]), ('rent', 10 ** 400, [[0, 10 ** 400]] * 2),
                ('bids', 900, [[600, 301], None]), ('bids', 900, [[600, 300], [900]]), ('bids', 900, [[900 - (1 << 32), 1 << 32], [500, 400]]),
                ('bids', 3, [[1, 1, 1], [3, 0, 0], [3, 0, 0, 0]])):
            self.assertEqual(refusal(lambda: fairsplit.rent(total, bids)), refused(field), (total, bids))

    def test_all_missing_bids_are_named(self):
        self.assertEqual(refusal(lambda: fairsplit.rent(900, [None, [900, 0, 0], None], members=['A', 'B', 'C'])), ('Void', {'missing': ('A', 'C')}))
        self.assertEqual(refusal(lambda: fairsplit.rent(900, [None, None], rooms=['r', 's'])), ('Void', {'missing': (1, 2)}))

    def test_the_report_is_that_of_the_program(self):
        case = example('flat-for-three')
        division = fairsplit.rent(900, flat())
        self.assertEqual(division.report, report_of({**case, 'title': 'rent'}))
        self.assertEqual(fairsplit.rent(900, flat(), title=case['title']).report, report_of(case))
        self.assertEqual(fairsplit.goods(heirs(), title='House of Ida').report, (EXAMPLES / 'three-heirs.report.txt').read_text())
        for title in ('', 'x' * 41, 'a\nb', 5):
            with self.assertRaises(ValueError):
                fairsplit.rent(900, flat(), title=title)
        odd = fairsplit.rent(900, [list(row.values()) for row in flat().values()], members=['Ann', ('B', 2), 'C\n'], rooms=['x' * 41, 'Back', 3])
        self.assertEqual(odd.report, report_of({**case, 'title': 'rent', 'members': ['Ann', 'm2', 'm3'], 'rooms': ['r1', 'Back', 'r3']}))
        self.assertNotIn('report', repr(division))


class Goods(unittest.TestCase):
    def test_the_heirs_of_the_examples(self):
        division = fairsplit.goods(heirs())
        self.assertEqual(division.text, text('three-heirs'))
        self.assertEqual(division.owners, ('Ada', 'Cleo', 'Bo', 'Cleo', 'Bo'))
        self.assertEqual(division.shares[1].goods, ('Car', 'Paintings'))
        self.assertEqual((division.positive, division.product, division.steps), (3, 400 * 650 * 400, 11))
        self.assertEqual(division.envy[1], (-550, 0, -400))

    def test_who_has_not_bid_has_no_share(self):
        division = fairsplit.goods({'A': {'x': 400, 'y': 600}, 'B': None, 'C': {'y': 300, 'x': 700}})
        self.assertEqual([share.member for share in division.shares], ['A', 'C'])
        self.assertEqual(division.owners, ('C', 'A'))

    def test_who_gets_nothing_has_a_share_of_nothing(self):
        division = fairsplit.goods([[1000, 0], [500, 500], [600, 400]])
        self.assertEqual([share.goods for share in division.shares], [(1,), (2,), ()])
        self.assertEqual((division.owners, division.shares[2].points), ((1, 2), 0))

    def test_the_first_field_that_breaks_its_rule_is_named(self):
        for field, limit, bids in (
                ('members', 0, [[1, 2]]), ('members', 0, [[1000]] * 13),
                ('goods', 0, [25 * [40]] * 2), ('goods', None, [None, None]), ('goods', 0, [[], []]),
                ('limit', 0, [[1, 2], [3, 4]]), ('limit', -1, [[1, 2], None]), ('limit', 1 << 32, [None, [1, 2]]), ('limit', 200_001, [None, [1000, 0]]),
                ('bids', None, [[1000, 0], [1000]]), ('bids', None, [[1, 2], None]), ('bids', None, [[1000 - (1 << 32), 1 << 32], None])):
            self.assertEqual(refusal(lambda: fairsplit.goods(bids, limit=limit)), refused(field), (limit, bids))

    def test_goods_without_any_bid_are_void(self):
        self.assertEqual(refusal(lambda: fairsplit.goods({'A': None, 'B': None}, goods=['x'])), ('Void', {'missing': ('A', 'B')}))
        self.assertEqual(refusal(lambda: fairsplit.goods([None, None], goods=['x'], limit=0)), refused('limit'))

    def test_a_limit_that_is_too_low(self):
        with self.assertRaises(OverLimit) as caught:
            fairsplit.goods(heirs(), limit=10)
        self.assertEqual(caught.exception.limit, 10)

    def test_an_audit(self):
        audit = fairsplit.weigh(heirs(), ['Ada', 'Cleo', 'Bo', 'Cleo', 'Bo'])
        self.assertIsNone(audit.dominating)
        self.assertTrue(audit.envy_free and audit.ef1 and audit.pareto)
        worse = fairsplit.weigh(heirs(), {'Piano': 'Bo', 'Clock': 'Cleo', 'Car': 'Ada', 'Ring': 'Cleo', 'Paintings': 'Bo'})
        self.assertEqual(len(worse.dominating), 5)

    def test_adjusted_winner(self):
        case = example('attic-for-two')
        division = fairsplit.winner(case['bids'], members=case['members'], goods=case['goods'])
        self.assertEqual(division.text, text('attic-for-two.winner'))
        self.assertEqual((division.shares[0].parts, division.total, division.cut), ((Fraction(10, 11), 0), Fraction(7000, 11), case['goods'][0]))
        self.assertEqual(division[case['members'][1]].parts, (Fraction(1, 11), 1))
        self.assertTrue(fairsplit.check_winner(division.text))
        with self.assertRaises(NotTwo):
            fairsplit.winner(heirs())

    def test_a_file_of_values(self):
        table = fairsplit.read_table([',Piano,Clock,Car,Ring,Paintings', 'Ada,400,100,250,150,100', 'Bo,100,150,450,100,200', 'Cleo,250,100,300,300,50', 'Di,,,,,'])
        self.assertEqual(fairsplit.goods(table).owners, ('Ada', 'Cleo', 'Bo', 'Cleo', 'Bo'))

    def test_arrays_and_frames(self):
        case = example('three-heirs')
        try:
            import numpy
        except ImportError:
            self.skipTest('NumPy is not installed')
        self.assertEqual(fairsplit.goods(numpy.array(case['bids'])).certificate, text('three-heirs'))
        with self.assertRaises(TypeError):
            fairsplit.goods(numpy.array(case['bids'], dtype=float))
        try:
            import pandas
        except ImportError:
            self.skipTest('pandas is not installed')
        frame = pandas.DataFrame(case['bids'], index=case['members'], columns=case['goods'])
        self.assertEqual(fairsplit.goods(frame).shares, fairsplit.goods(heirs()).shares)


class Fares(unittest.TestCase):
    def test_the_taxi_of_the_examples(self):
        legs = {'origin': {'Station': 1000, 'Harbour': 1500}, 'Station': {'Station': 0, 'Harbour': 700}, 'Harbour': {'Station': 900, 'Harbour': 0}}
        division = fairsplit.fares(300, legs, {'Ann': 'Station', 'Ben': 'Harbour'})
        self.assertEqual(division.text, text('taxi-for-two'))
        self.assertEqual([(share.fare, share.pays, share.alone) for share in division.shares], [(750, 750, 1300), (1250, 1250, 1800)])
        self.assertEqual((division.route, division.total), (('Ann', 'Ben'), 2000))

    def test_who_does_not_ride(self):
        division = fairsplit.fares(300, [[1000, 1500], [0, 700], [900, 0]], [2, None, 1], members=['A', 'B', 'C'])
        self.assertEqual(([share.member for share in division.shares], division.route), (['A', 'C'], ('C', 'A')))


    def test_the_first_field_that_breaks_its_rule_is_named(self):
        far = [[1, 2], [0, 1], [1, 0]]
        for field, flag, legs, bids in (
                ('members', -1, far, [1]), ('members', 0, far, 11 * [1]),
                ('places', -1, [[], []], [None, None]), ('places', 0, [[0] * 13] * 14, [1, 2]),
                ('flag', -1, [[1, 2]], [1, 2]), ('flag', 1_000_001, far, [None, None]),
                ('legs', 0, far[:2], [1, 2]), ('legs', 0, [*far, [1, 0]], [1, 2]), ('legs', 0, [[1, 2], [0, 1], [1]], [1, 2]),
                ('legs', 0, [[1, 2], None, [1, 0]], [1, 2]), ('legs', 0, [[1, -2], [0, 1], [1, 0]], [1, 2]), ('legs', 0, [[1, 2], [5, 1], [1, 0]], [None, None])):
            self.assertEqual(refusal(lambda: fairsplit.fares(flag, legs, bids)), refused(field), (flag, legs, bids))
        self.assertEqual(refusal(lambda: fairsplit.fares(0, far, [1, 2, 1], members=['A', 'B'])), refused('bids'))
        self.assertEqual(refusal(lambda: fairsplit.fares(0, far, [None], members=['A', 'B'])), refused('bids'))
        with self.assertRaises(ValueError):
            fairsplit.fares(0, far, [1, 3])

    def test_a_ride_of_nobody_is_void(self):
        self.assertEqual(refusal(lambda: fairsplit.fares(300, LEGS, {'A': None, 'B': None})), ('Void', {'missing': ('A', 'B')}))


class Limits(unittest.TestCase):
    """The package itself tests how many may take part, and knows the usual limit. Both are those of the program."""

    def case(self, kind, members):
        """A case of so many members, who ask for nothing but the first room, good or place."""
        if kind == 'rent':
            return {'rooms': names('r', members), 'rent': 900, 'bids': [[900] + [0] * (members - 1)] * members}
        if kind == 'goods':
            return {'goods': ['g'], 'bids': [[1000]] * members}
        return {'places': ['p'], 'flag': 1, 'legs': [[1], [0]], 'bids': [1] * members}

    def divided(self, kind, case):
        """The certificate of a case by the package, or its refusal."""
        if kind == 'rent':
            return fairsplit.rent(case['rent'], case['bids']).certificate
        if kind == 'goods':
            return fairsplit.goods(case['bids']).certificate
        return fairsplit.fares(case['flag'], case['legs'], case['bids']).certificate

    def test_how_many_may_take_part(self):
        for kind in ('rent', 'goods', 'fares'):
            for members in range(1, 15):
                case = self.case(kind, members)
                status, text = fairsplit.run('solve', json.dumps({'kind': kind, 'title': 'x', 'members': names('m', members), **case}).encode())
                try:
                    found = 0, self.divided(kind, case)
                except Refused as error:
                    found = error.status, f'{error.said}\n'
                self.assertEqual(found, (status, text.decode()), (kind, members))

    def test_the_usual_limit(self):
        self.assertEqual(fairsplit.goods(heirs()).certificate, fairsplit.run('solve', json.dumps(
            {'kind': 'goods', 'title': 'x', **{key: example('three-heirs')[key] for key in ('members', 'goods', 'bids')}}).encode())[1].decode())


if __name__ == '__main__':
    unittest.main()
