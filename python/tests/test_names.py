"""What has a name goes by its name, and never by where it stands: a table of calls, and a property over drawn cases in every container."""
import random
import unittest

import fairsplit
from common import heirs
from fairsplit import Table, draw

try:
    import numpy
    import pandas
except ImportError:
    numpy = pandas = None

ROOMS = {'Ann': {'Attic': 900, 'Back': 0}, 'Ben': {'Attic': 0, 'Back': 900}}
DUE = {'Ann': 'Attic', 'Ben': 'Back'}
LEGS = {'origin': {'A': 9, 'B': 9, 'C': 9}, 'A': {'A': 0, 'B': 0, 'C': 1}, 'B': {'A': 0, 'B': 0, 'C': 500}, 'C': {'A': 7, 'B': 7, 'C': 0}}
STOPS = {'x': 'A', 'y': 'C'}
DRAWS = 40


def rooms(bids, **names):
    """The room of each member."""
    return {share.member: share.room for share in fairsplit.rent(900, bids, **names)}


def fare_of(legs, bids=STOPS, **names):
    """The fare of each rider."""
    return {share.member: share.fare for share in fairsplit.fares(0, legs, bids, **names)}


class Names(unittest.TestCase):
    def test_names_of_a_mapping_say_the_order(self):
        for names in ({}, {'members': ['Ben', 'Ann']}, {'rooms': ['Back', 'Attic']}, {'members': ['Ben', 'Ann'], 'rooms': ['Back', 'Attic']}):
            self.assertEqual(rooms(ROOMS, **names), DUE, names)
        self.assertEqual([share.member for share in fairsplit.rent(900, ROOMS, members=['Ben', 'Ann'])], ['Ben', 'Ann'])

    def test_other_names_are_an_error(self):
        for names, said in (({'members': ['Ann', 'Cy']}, "'Cy' is none of the members"), ({'members': ['Ann']}, "'Ben' has bid, and is not among the members"),
                            ({'rooms': ['Attic', 'Cellar']}, 'Ann: .Back. is none of the rooms'), ({'members': ['Ann', 'Ann']}, "'Ann' has bid, and is twice among")):
            with self.assertRaisesRegex(ValueError, said):
                rooms(ROOMS, **names)
        with self.assertRaisesRegex(ValueError, "Ben: 'Cellar' is none of the rooms"):
            rooms({'Ann': ROOMS['Ann'], 'Ben': {'Attic': 0, 'Cellar': 900}})
        with self.assertRaisesRegex(ValueError, 'Ben: nothing is said of .Back.'):
            rooms({'Ann': ROOMS['Ann'], 'Ben': {'Attic': 900}})

    def test_a_table_goes_by_its_names(self):
        table = fairsplit.read_table([',Attic,Back', 'Ann,900,0', 'Ben,0,900'])
        self.assertEqual(rooms(table, members=['Ben', 'Ann'], rooms=['Back', 'Attic']), DUE)
        for names in ({'rooms': ['Attic', 'Cellar']}, {'members': ['Ann', 'Cy']}):
            with self.assertRaises(ValueError):
                rooms(table, **names)

    def test_rows_without_an_order_are_none(self):
        for bids in ([{600, 300}, {500, 400}], [frozenset([600, 300])] * 2, [b'ab', b'ab'], [bytearray(b'ab')] * 2, ['ab', 'ab'], 'abcd', {600, 300}):
            with self.assertRaises(TypeError):
                fairsplit.rent(195, bids)

    def test_names_and_places_are_not_mixed(self):
        mixed = {'Ann': ROOMS['Ann'], 'Ben': [0, 900]}
        with self.assertRaisesRegex(ValueError, 'the bids of Ann have names, and those of Ben have none'):
            rooms(mixed)
        self.assertEqual(rooms(mixed, rooms=['Attic', 'Back']), DUE)

    def test_legs_go_by_their_names(self):
        due = fare_of(LEGS)
        for order in (['origin', 'B', 'A', 'C'], ['C', 'A', 'origin', 'B']):
            self.assertEqual(fare_of({name: LEGS[name] for name in order}), due, order)
        self.assertEqual(fare_of(LEGS, places=['C', 'B', 'A']), due)
        self.assertEqual(fare_of(LEGS, {'y': 'C', 'x': 'A'}, members=['x', 'y']), due)
        for legs in ({('D' if name == 'C' else name): row for name, row in LEGS.items()}, {name: list(row.values()) for name, row in LEGS.items()}):
            with self.assertRaisesRegex(ValueError, 'give one from the origin'):
                fare_of(legs, {'x': 1})

    def test_riders_go_by_their_names(self):
        with self.assertRaises(ValueError):
            fare_of(LEGS, members=['x', 'z'])
        for bids in ({'A', 'C'}, 'AC'):
            with self.assertRaises(TypeError):
                fare_of(LEGS, bids)

    def test_a_name_of_nothing_is_named(self):
        with self.assertRaisesRegex(ValueError, "'D' is none of the places"):
            fare_of(LEGS, {'x': 'A', 'y': 'D'})
        with self.assertRaisesRegex(ValueError, "'Di' is none of the members"):
            fairsplit.weigh(heirs(), ['Ada', 'Cleo', 'Bo', 'Cleo', 'Di'])
        with self.assertRaisesRegex(ValueError, "'Vase' is none of the goods"):
            fairsplit.weigh(heirs(), {**dict.fromkeys(heirs()['Ada'], 'Ada'), 'Vase': 'Ada'})
        with self.assertRaisesRegex(ValueError, "nothing is said of 'Ring'"):
            fairsplit.weigh(heirs(), dict.fromkeys(['Piano', 'Clock', 'Car', 'Paintings'], 'Ada'))

    def test_a_name_that_two_have_names_neither(self):
        with self.assertRaisesRegex(ValueError, "more than one of the members is 'K'"):
            fairsplit.weigh([[600, 400], [500, 500]], ['K', 'K'], members=['K', 'K'])
        with self.assertRaisesRegex(ValueError, "more than one of the places is 'S'"):
            fairsplit.fares(0, [[5, 50], [0, 1], [1, 0]], ['S', 'S'], places=['S', 'S'])


@unittest.skipUnless(pandas, 'pandas is not installed')
class Frames(unittest.TestCase):
    def test_a_labelled_frame_goes_by_its_labels(self):
        frame = pandas.DataFrame.from_dict(ROOMS, orient='index')
        for names in ({}, {'members': ['Ben', 'Ann']}, {'rooms': ['Back', 'Attic']}, {'members': ['Ben', 'Ann'], 'rooms': ['Back', 'Attic']}):
            self.assertEqual(rooms(frame, **names), DUE, names)
        for names in ({'members': ['Ann', 'Cy']}, {'rooms': ['Attic', 'Cellar']}):
            with self.assertRaises(ValueError):
                rooms(frame, **names)

    def test_a_frame_without_labels_takes_names(self):
        frame = pandas.DataFrame([[900, 0], [0, 900]])
        self.assertEqual(rooms(frame, members=['Ann', 'Ben'], rooms=['Attic', 'Back']), DUE)
        self.assertEqual(rooms(frame), {0: 0, 1: 1})
        with self.assertRaises(ValueError):
            rooms(frame[::-1], members=['Ann', 'Ben'])

    def test_a_series_goes_by_its_labels(self):
        rows = {'Ann': pandas.Series({'Attic': 900, 'Back': 0}), 'Ben': pandas.Series({'Back': 900, 'Attic': 0})}
        self.assertEqual(rooms(rows), DUE)
        self.assertEqual(rooms(pandas.Series(rows)), DUE)
        self.assertEqual(fare_of(LEGS, pandas.Series({'y': 'C', 'x': 'A'})), fare_of(LEGS))
        with self.assertRaises(ValueError):
            rooms({'Ann': pandas.Series([900, 0], index=['Attic', 'Attic']), 'Ben': ROOMS['Ben']})

    def test_a_frame_of_columns_is_none(self):
        class Columns:
            columns = ['Attic', 'Back']

            def __iter__(self):
                return iter([[900, 0], [0, 900]])

        with self.assertRaises(TypeError):
            rooms(Columns())

    def test_who_has_not_bid_has_a_row_without_numbers(self):
        bids = [[600, 400], [None, None], [500, 500]]
        for frame in (pandas.DataFrame(bids), pandas.DataFrame(bids, dtype='Int64'), pandas.DataFrame(bids, dtype=object)):
            division = fairsplit.goods(frame, members=['Ann', 'Ben', 'Cy'], goods=['x', 'y'])
            self.assertEqual([share.member for share in division], ['Ann', 'Cy'])
            with self.assertRaises(fairsplit.Void):
                fairsplit.rent(1000, frame.iloc[:2])
        self.assertEqual(len(fairsplit.goods(numpy.array([[600, 400], [numpy.nan, numpy.nan], [500, 500]]))), 2)

    def test_a_single_gap_is_an_error_that_says_where(self):
        frame = pandas.DataFrame({'x': [600, None], 'y': [400, 500]}, index=['Ann', 'Ben'])
        with self.assertRaisesRegex(ValueError, 'Ben, x: there is no number'):
            fairsplit.goods(frame)

    def test_floats_are_none_even_beside_gaps(self):
        with self.assertRaisesRegex(TypeError, 'Ann, x: 600.5 is no whole number'):
            fairsplit.goods(pandas.DataFrame({'x': [600.5, None], 'y': [399.5, None]}, index=['Ann', 'Ben']))
        with self.assertRaises(TypeError):
            fairsplit.goods(pandas.DataFrame({'x': [600.0, 500.0], 'y': [400.0, 500.0]}))
        with self.assertRaises(TypeError):
            fairsplit.rent(1, numpy.array([[True, False], [True, False]]))


def shuffled(draw, mapping):
    """The same mapping, in another order."""
    return {name: mapping[name] for name in draw.sample(list(mapping), len(mapping))}


def containers(draw, members, columns, rows):
    """The same bids in every container, permuted wherever names say what they are; each with the names that it hasn't."""
    named = {member: dict(zip(columns, row)) for member, row in zip(members, rows)}
    mixed = {member: shuffled(draw, row) for member, row in shuffled(draw, named).items()}
    down, across = draw.sample(members, len(members)), draw.sample(columns, len(columns))
    yield mixed, {}
    yield {member: [named[member][column] for column in columns] for member in down}, {'columns'}
    yield {member: tuple(named[member][column] for column in columns) for member in down}, {'columns'}
    yield [mixed[member] for member in members], {'members'}
    yield [list(row) for row in rows], {'members', 'columns'}
    yield tuple(map(tuple, rows)), {'members', 'columns'}
    yield Table(tuple(down), tuple(across), tuple([named[member][column] for column in across] for member in down)), {}
    if pandas:
        frame = pandas.DataFrame([[named[member][column] for column in across] for member in down], index=down, columns=across)
        yield frame, {}
        yield pandas.Series({member: pandas.Series(row) for member, row in mixed.items()}), {}
        yield {member: pandas.Series(row) for member, row in mixed.items()}, {}
        yield pandas.DataFrame(rows), {'members', 'columns'}
        yield numpy.array(rows), {'members', 'columns'}
        yield numpy.array([tuple(row) for row in rows], dtype=[(column, 'u4') for column in columns]), {'members'}


class Property(unittest.TestCase):
    """The division by name is the same in every container and in every order. The order of members and items breaks ties, so it is said."""

    def test_rents(self):
        for seed in range(DRAWS):
            rng, count = random.Random(seed), 2 + seed % 4
            total, rows = draw.rent(count, seed=seed, total=rng.choice([6, 900]))
            members, columns = [f'm{number}' for number in range(count)], [f'r{number}' for number in range(count)]
            due = fairsplit.rent(total, rows, members=members, rooms=columns)
            for bids, _ in containers(rng, members, columns, rows):
                self.assertEqual(fairsplit.rent(total, bids, members=members, rooms=columns), due, (seed, type(bids)))

    def test_names_that_are_not_said(self):
        for seed in range(DRAWS):
            rng, count = random.Random(seed), 2 + seed % 4
            rows = draw.goods(count, 5, seed=seed)
            members, columns = [f'm{number}' for number in range(count)], [f'g{number}' for number in range(5)]
            due = {member: share.points for member, share in zip(members, fairsplit.goods(rows))}
            for bids, missing in containers(rng, members, columns, rows):
                names = {word: {'members': members, 'goods': columns}[word] for word in ({'columns': 'goods'}.get(name, name) for name in missing)}
                division = fairsplit.goods(bids, **names)
                self.assertEqual(sorted(share.member for share in division), members)
                self.assertEqual(division.product, fairsplit.goods(rows).product)
                for share in division:
                    self.assertEqual(share.points, sum(rows[members.index(share.member)][columns.index(good)] for good in share.goods), due)

    def test_fares(self):
        for seed in range(DRAWS):
            rng, places = random.Random(seed), 1 + seed % 4
            flag, legs, stops = draw.fares(2 + seed % 3, places, seed=seed)
            columns, members = [f'p{number}' for number in range(places)], [f'm{number}' for number in range(len(stops))]
            at = {member: columns[stop - 1] for member, stop in zip(members, stops)}
            due = fairsplit.fares(flag, legs, at, places=columns)
            for bids, missing in containers(rng, ['origin', *columns], columns, legs):
                if missing == {'members'} or (pandas and isinstance(bids, numpy.ndarray) and bids.dtype.names):
                    continue
                self.assertEqual(fairsplit.fares(flag, bids, shuffled(rng, at), members=members, places=columns), due, (seed, type(bids)))


if __name__ == '__main__':
    unittest.main()
