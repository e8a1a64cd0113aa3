"""Tests of errors, of the bare solvers and of verdicts, over the real library."""
import pickle
import unittest

import fairsplit
from common import EXAMPLES, FLAT, LEGS, example, flat, text
from fairsplit import NotTwo, OutOfMemory, OverLimit, Refused, Verdict, Void, numbers


class Errors(unittest.TestCase):
    def test_errors_and_divisions_come_from_another_process(self):
        for error in (Void(('Ann', 2)), OverLimit(10), NotTwo(), OutOfMemory(), Refused(3, 'bids', None, 'refused: field bids')):
            again = pickle.loads(pickle.dumps(error))
            self.assertEqual((type(again), str(again), again.status, vars(again)), (type(error), str(error), error.status, vars(error)))
        division = fairsplit.rent(900, flat())
        self.assertEqual(pickle.loads(pickle.dumps(division)), division)

    def test_what_an_error_says(self):
        self.assertEqual([str(error) for error in (Void(('Ann', 2)), OverLimit(10), OutOfMemory(), Refused(3, None, 2, 'refused: line 2'))],
                         ['no bid from Ann, 2', 'the search takes more than 10 steps', 'memory ran out', 'refused: line 2'])
        self.assertEqual(str(Refused(3, 'bids', None, 'refused: field bids', "Ben's bids add up to 901, not 900")), "Ben's bids add up to 901, not 900")


class Numbers(unittest.TestCase):
    def test_certificates(self):
        case = example('three-heirs')
        self.assertEqual(numbers.goods(case.get('limit', 100_000), [1, 2, 3], case['bids']), (0, text('three-heirs')))
        self.assertEqual(numbers.fares(300, LEGS, [1, 2], [1, 2]), (0, text('taxi-for-two')))
        self.assertEqual(numbers.rent(900, FLAT), (0, text('flat-for-three')))

    def test_whole_cents(self):
        self.assertEqual(numbers.rent_cents(900, FLAT), (0, [700, 100, 100]))
        self.assertEqual(numbers.rent_cents(900, [[600, 300], [501, 399]]), (0, [551, 349]))
        self.assertEqual(numbers.fares_cents(300, LEGS, [1, 2], [1, 2]), (0, [750, 1250]))

    def test_refusals(self):
        self.assertEqual(numbers.rent(0, FLAT), (3, 'refused: field rent\n'))
        self.assertEqual(numbers.rent_cents(901, FLAT), (3, 'refused: field bids\n'))
        self.assertEqual(numbers.fares_cents(300, LEGS, [1, 1], [1, 2]), (3, 'refused: field bids\n'))
        self.assertEqual(numbers.goods(10, [1, 2, 3], example('three-heirs')['bids']), (1, 'step limit 10\n'))

    def test_what_32_bits_cannot_hold(self):
        for wrong in (-1, 1 << 32):
            with self.assertRaises(ValueError):
                numbers.rent(wrong, FLAT)
        with self.assertRaises(TypeError):
            numbers.rent_cents(900.0, FLAT)

    def test_rows_that_could_slide_or_have_no_order(self):
        with self.assertRaisesRegex(ValueError, 'row 2 has 2 numbers, and row 1 has 1'):
            numbers.rent(900, [[900], [450, 450]])
        for rows in ([{600, 300}, {500, 400}], [b'ab', b'ab'], ['ab', 'ab'], [{1: 600, 2: 300}, {1: 500, 2: 400}], {1: [600, 300], 2: [500, 400]}):
            with self.assertRaises(TypeError):
                numbers.rent(900, rows)


class Verdicts(unittest.TestCase):
    def test_only_a_text_is_judged(self):
        for thing in (5, None, [104], fairsplit.rent(900, flat())):
            with self.assertRaises(TypeError):
                fairsplit.check(thing)
        for thing in ('hello', 5, None):
            with self.assertRaises(TypeError):
                fairsplit.run('check', thing)

    def test_a_path_is_read(self):
        self.assertTrue(fairsplit.check(EXAMPLES / 'flat-for-three.txt'))
        self.assertTrue(fairsplit.check_winner(EXAMPLES / 'attic-for-two.winner.txt'))
        with self.assertRaises(FileNotFoundError):
            fairsplit.check(EXAMPLES / 'none.txt')

    def test_verdicts(self):
        certificate = text('flat-for-three')
        self.assertEqual(fairsplit.check(certificate), Verdict(True))
        self.assertEqual(fairsplit.check(certificate.encode()), Verdict(True))
        forged = fairsplit.check(certificate.replace('prices 700 100 100', 'prices 699 101 100'))
        self.assertEqual((bool(forged), forged.rule), (False, 7))
        with self.assertRaises(Refused) as caught:
            fairsplit.check(certificate.replace('members 3', 'members x'))
        self.assertEqual((caught.exception.status, caught.exception.field, caught.exception.line), (3, None, 3))
        with self.assertRaises(Refused) as caught:
            fairsplit.check(b'x' * 4_000_001)
        self.assertEqual((caught.exception.line, str(caught.exception)), (None, 'refused: too long'))

    def test_each_example(self):
        for path in EXAMPLES.glob('*.txt'):
            if path.read_text().startswith(('fairsplit 1\n', 'fairsplit 2\n')):
                self.assertTrue(fairsplit.check(path.read_text()), path)


if __name__ == '__main__':
    unittest.main()
