"""Drawn cases: the same for the same seed, valid, and those of docs/SEARCH.md."""
import importlib.util
import random
import unittest
from pathlib import Path

import fairsplit
from fairsplit import draw

DOCS = Path(__file__).resolve().parents[2] / 'docs'


def measured():
    """The script that measured the tables of docs/SEARCH.md."""
    spec = importlib.util.spec_from_file_location('goods_answered', DOCS / 'goods_answered.py')
    module = importlib.util.module_from_spec(spec)
    spec.loader.exec_module(module)
    return module


class Draws(unittest.TestCase):
    def test_the_estates_of_the_tables(self):
        script = measured()
        for people, items, number in ((2, 4, 0), (5, 12, 19), (12, 24, 7)):
            for alike in (False, True):
                rows = script.estate(random.Random(f'{people} people, {items} goods, draw {number}'), people, items, alike)
                self.assertEqual(draw.estate(people, items, number, alike=alike), rows)
                self.assertEqual(draw.estate(people, items, number, alike=alike, step=50), [script.stepped(row) for row in rows])

    def test_a_seed_gives_the_same_case_and_another_one_another(self):
        for one in (lambda seed: draw.rent(3, seed=seed), lambda seed: draw.goods(3, 5, seed=seed, alpha=0.5), lambda seed: draw.fares(4, 3, seed=seed)):
            self.assertEqual(one('a'), one('a'))
            self.assertNotEqual(one('a'), one('b'))

    def test_all_are_valid_cases(self):
        for seed in range(30):
            tastes = [{}, {'shared': 0.5}, {'alpha': 0.3}, {'alpha': 5, 'shared': 0.25, 'step': 10}][seed % 4]
            self.assertEqual(len(fairsplit.rent(*draw.rent(3, seed=seed, **tastes))), 3)
            self.assertEqual(len(fairsplit.goods(draw.goods(3, 5, seed=seed, **tastes))), 3)
            self.assertEqual(len(fairsplit.fares(*draw.fares(4, 3, seed=seed))), 4)

    def test_tastes(self):
        def spread(**tastes):
            rows = draw.goods(200, 6, seed=1, **tastes)
            return sum(max(row) for row in rows) / 200

        self.assertGreater(spread(alpha=0.1), spread(alpha=1))
        self.assertGreater(spread(alpha=1), spread(alpha=20))
        rows = draw.goods(2, 6, seed=1, shared=1)
        self.assertEqual(rows[0], rows[1])
        self.assertTrue(all(number % 50 == 0 for row in draw.goods(5, 6, seed=1, step=50) for number in row))


if __name__ == '__main__':
    unittest.main()
