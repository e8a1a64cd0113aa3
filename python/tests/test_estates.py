"""Estates: what the specified search gives up is divided by the search for estates, with a certificate of its own, over the real library."""
import os
import pickle
import random
import re
import signal
import threading
import time
import unittest
import xml.etree.ElementTree
from concurrent.futures import ThreadPoolExecutor

import fairsplit
from common import EXAMPLES, example, heirs, in_little_stack, names, refusal, text
from fairsplit import BrokenRule, FoundDivision, GoodsDivision, OverLimit, Refused, Verdict, draw, numbers
from test_names import containers
from test_threads import forked

FAMILY = draw.goods(4, 18, seed='four people, eighteen goods')
# Of 12 people and 24 goods, all in hundreds and half shared: the search needs more than 20,000 steps.
HARD = draw.estate(12, 24, 5, alike=True, step=100)


def is_of_estates(division):
    """Whether the search for estates has found a division, with a certificate to which its judge says yes."""
    return division.text.startswith('fairsplit 2\n') and fairsplit.check(division.text) == Verdict(True)


def hard():
    """What a search says that ends too soon."""
    try:
        fairsplit.goods(HARD, members=names('m', 12), goods=names('g', 24), steps=300)
    except OverLimit as error:
        return error
    return None


class Divisions(unittest.TestCase):
    def test_many_people_and_goods(self):
        for people, items in ((4, 18), (3, 20), (10, 8), (12, 24)):
            division = fairsplit.goods(draw.estate(people, items, 3))
            self.assertTrue(is_of_estates(division), (people, items))
            self.assertEqual((division.positive, len(division.owners)), (min(people, items), items))
            self.assertEqual([share.points for share in division], [sum(row[good - 1] for good in share.goods)
                                                                    for share, row in zip(division, draw.estate(people, items, 3))])

    def test_the_family_of_the_examples(self):
        case = example('estate-for-four')
        division = fairsplit.goods(case['bids'], members=case['members'], goods=case['goods'])
        self.assertEqual(division.text, text('estate-for-four.estate'))
        self.assertEqual(fairsplit.read(EXAMPLES / 'estate-for-four.estate.txt', members=case['members'], goods=case['goods']), division)
        self.assertEqual(sorted(good for share in division for good in share.goods), sorted(case['goods']))

    def test_both_searches_find_the_same_division(self):
        for seed in range(20):
            rows = draw.goods(2 + seed % 4, 3 + seed % 6, seed=seed, step=random.Random(seed).choice([1, 50, 100, 250]))
            division = fairsplit.goods(rows)
            status, said, owners = numbers.estate(20_000, range(1, len(rows) + 1), rows)
            self.assertEqual((status, [*owners]), (0, [*division.owners]), seed)
            self.assertEqual(fairsplit.read(said).shares, division.shares)
            self.assertTrue(division.text.startswith('fairsplit 1\n'))

    def test_a_limit_asks_for_the_specified_search_alone(self):
        self.assertEqual(refusal(lambda: fairsplit.goods(FAMILY, limit=200_000)),
                         ('OverLimit', {'limit': 200_000, 'best': None, 'said': 'step limit 200000'}))
        self.assertEqual(fairsplit.goods(heirs(), limit=100_000), fairsplit.goods(heirs()))
        with self.assertRaisesRegex(ValueError, 'give one of them'):
            fairsplit.goods(FAMILY, limit=200_000, steps=20_000)

    def test_how_far_it_may_go(self):
        for steps in (0, -1, 1_000_001):
            with self.assertRaisesRegex(ValueError, f'steps is {steps}; it may be from 1 to 1000000'):
                fairsplit.goods(heirs(), steps=steps)
        with self.assertRaises(TypeError):
            fairsplit.goods(FAMILY, steps=20_000.0)
        self.assertEqual(fairsplit.goods(FAMILY, steps=1_000_000).shares, fairsplit.goods(FAMILY).shares)

    def test_more_goods_than_a_case_can_have(self):
        with self.assertRaises(Refused) as caught:
            fairsplit.goods([[40] * 25] * 2)
        self.assertEqual((caught.exception.field, str(caught.exception)), ('goods', '25 goods; there may be 1 to 24: put small ones together'))

    def test_who_has_not_bid_has_no_share(self):
        bids = dict(zip('ABCDE', [FAMILY[0], None, *FAMILY[1:]]))
        division = fairsplit.goods(bids)
        self.assertEqual([share.member for share in division], ['A', 'C', 'D', 'E'])
        self.assertIn('\nwho 1 3 4 5\n', division.text)
        self.assertEqual(fairsplit.read(division.text, members='ABCDE'), division)

    def test_what_every_division_can_do(self):
        division = fairsplit.goods(FAMILY, members=['Ann', 'Ben', 'Cy', 'Di'], title='House')
        self.assertEqual(pickle.loads(pickle.dumps(division)), division)
        self.assertEqual(len(division.envy), 4)
        xml.etree.ElementTree.fromstring(f'<div>{division._repr_html_()}</div>')
        self.assertEqual(division.report.splitlines()[:2], ['goods House', 'players 4 of 4'])
        audit = fairsplit.audit_goods(FAMILY, fairsplit.goods(FAMILY).owners)
        self.assertEqual((audit.pareto, audit.envy, audit.product), (True, division.envy, division.product))

    def test_the_report_is_that_of_the_program(self):
        division = fairsplit.goods({'A': {'x': 400, 'y': 600}, 'B': None, 'C\n': {'y': 300, 'x': 700}, 'D': {'x': 500, 'y': 500}}, title='House')
        self.assertEqual(division._own_report(), division.report)
        division = fairsplit.goods(heirs())
        self.assertEqual(division._own_report(), division.report)


class Found(unittest.TestCase):
    def test_the_best_that_was_found(self):
        error = hard()
        best = error.best
        self.assertIsInstance(best, (FoundDivision, GoodsDivision))
        self.assertEqual((error.limit, str(error)), (300, 'the search takes more than 300 steps; `best` is the best division that it found'))
        self.assertEqual((best.text, best.positive, len(best.owners), best['m3'].member), ('', 12, 24, 'm3'))
        self.assertEqual([share.points for share in best], [sum(row[int(good[1:]) - 1] for good in share.goods) for share, row in zip(best, HARD)])
        self.assertEqual(best.product, GoodsDivision.product.fget(best))

    def test_it_says_that_nothing_proves_it(self):
        best = hard().best
        self.assertTrue(repr(best).startswith('FoundDivision(not proved to be the best, shares='))
        self.assertTrue(best.report.endswith('not proved to be the best\n'))
        page = xml.etree.ElementTree.fromstring(f'<div>{best._repr_html_()}</div>')
        self.assertEqual(page.find('p').text, 'Not proved to be the best.')

    def test_it_comes_from_another_process(self):
        error = hard()
        again = pickle.loads(pickle.dumps(error))
        self.assertEqual((str(again), again.best, again.best.envy, again.limit), (str(error), error.best, error.best.envy, 300))


class Certificates(unittest.TestCase):
    def test_what_was_divided_is_read(self):
        division = fairsplit.goods(FAMILY, members=['Ann', 'Ben', 'Cy', 'Di'], goods=names('g', 18))
        again = fairsplit.read(division.text, members=['Ann', 'Ben', 'Cy', 'Di'], goods=names('g', 18))
        self.assertEqual((again, again.envy, again.report), (division, division.envy, division.report))

    def test_a_changed_certificate_is_refused(self):
        said = fairsplit.goods(FAMILY).text
        owners = re.search('^owners (.*)$', said, re.MULTILINE)[1].split()
        for good, owner in enumerate(owners):
            other = ' '.join([*owners[:good], str(int(owner) % 4 + 1), *owners[good + 1:]])
            forged = re.sub('^owners .*$', f'owners {other}', said, flags=re.MULTILINE)
            self.assertFalse(fairsplit.check(forged), other)
            with self.assertRaises(BrokenRule):
                fairsplit.read(forged)
        self.assertEqual(fairsplit.check(said.replace('tree +', 'tree -', 1)), Verdict(False, 3))

    def test_what_is_no_text_of_either_kind(self):
        said = fairsplit.goods(FAMILY).text
        for line, wrong in ((1, said.replace('fairsplit 2', 'fairsplit 1', 1)), (1, said.replace('fairsplit 2', 'fairsplit 3', 1)), (1, 'fairsplit 2'),
                            (2, 'fairsplit 2\n'), (3, said.replace('players 4', 'players 13', 1)), (1, text('three-heirs').replace('fairsplit 1', 'fairsplit 2', 1))):
            with self.assertRaises(Refused) as caught:
                fairsplit.check(wrong)
            self.assertIsInstance(caught.exception.line, int, wrong[:20])

    def test_the_program_knows_no_estates(self):
        self.assertEqual(fairsplit.run('check', fairsplit.goods(FAMILY).text.encode()), (3, b'refused: line 1\n'))


class Names(unittest.TestCase):
    def test_the_division_by_name_is_the_same_in_every_container(self):
        for seed in range(6):
            rng, people = random.Random(seed), 4 + seed % 3
            rows = draw.goods(people, 16, seed=seed, step=10)
            members, goods = names('m', people), names('g', 16)
            due = fairsplit.goods(rows, members=members, goods=goods)
            self.assertTrue(is_of_estates(due), seed)
            for bids, _ in containers(rng, members, goods, rows):
                self.assertEqual(fairsplit.goods(bids, members=members, goods=goods), due, (seed, type(bids)))


class Threads(unittest.TestCase):
    def test_control_c_ends_a_search(self):
        timer = threading.Timer(0.3, os.kill, (os.getpid(), signal.SIGINT))
        begun = time.monotonic()
        timer.start()
        with self.assertRaises(KeyboardInterrupt):
            fairsplit.goods(HARD, steps=1_000_000)
        self.assertLess(time.monotonic() - begun, 5)
        self.assertTrue(is_of_estates(fairsplit.goods(FAMILY)))

    def test_the_room_for_a_search_is_given_back(self):
        def mapped():
            with open('/proc/self/statm') as file:
                return int(file.read().split()[0]) * 4096

        fairsplit.goods(FAMILY)
        before = mapped()
        errors = [hard() for _ in range(4)]
        self.assertLess(mapped() - before, 20_000_000)
        self.assertEqual(len({error.best for error in errors}), 1)

    def test_many_at_once_and_with_little_stack(self):
        due = fairsplit.goods(FAMILY)
        with ThreadPoolExecutor(4) as pool:
            self.assertEqual(set(pool.map(lambda _: fairsplit.goods(FAMILY).text, range(12))), {due.text})
        self.assertEqual(in_little_stack(lambda: fairsplit.goods(FAMILY)), due)

    def test_what_a_signal_does_meanwhile_leaves_the_search_alone(self):
        others = []

        def divides_too(*_):
            others.append(fairsplit.goods(FAMILY).text)
            signal.setitimer(signal.ITIMER_REAL, 0.02)

        before = signal.signal(signal.SIGALRM, divides_too)
        signal.setitimer(signal.ITIMER_REAL, 0.02)
        try:
            found = hard()
        finally:
            signal.setitimer(signal.ITIMER_REAL, 0)
            signal.signal(signal.SIGALRM, before)
        self.assertEqual((found.best, len(set(others))), (hard().best, 1))

    def test_a_forked_process_searches_too(self):
        due = fairsplit.goods(FAMILY).text
        self.assertEqual(forked(lambda: fairsplit.goods(FAMILY).text == due), 0)


class Bare(unittest.TestCase):
    def test_numbers(self):
        self.assertEqual(numbers.estate(20_000, [1, 3], [[600, 400], [500, 500]])[::2], (0, [1, 2]))
        status, line, owners = numbers.estate(300, range(1, 13), HARD)
        self.assertEqual((status, line, len(owners)), (1, 'step limit 300\n', 24))
        self.assertEqual(numbers.estate(20_000, [1, 2], [[600, 401], [500, 500]]), (3, 'refused: field bids\n', []))
        self.assertEqual(numbers.estate(0, [1, 2], [[600, 400], [500, 500]]), (3, 'refused: field limit\n', []))


if __name__ == '__main__':
    unittest.main()
