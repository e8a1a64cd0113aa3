"""Tables as spreadsheets in six languages write them, the command that divides one, and points that are scaled."""
import contextlib
import io
import tempfile
import unittest
from decimal import Decimal
from fractions import Fraction
from pathlib import Path

import fairsplit
from common import EXAMPLES
from fairsplit.__main__ import main

MONEY = ([Decimal('600.50'), Decimal('1299.50')], [Decimal('1000'), Decimal('900')])


def printed(*words):
    """The status of `python -m fairsplit`, and what it prints."""
    out, err = io.StringIO(), io.StringIO()
    with contextlib.redirect_stdout(out), contextlib.redirect_stderr(err):
        status = main(list(map(str, words)))
    return status, out.getvalue() or err.getvalue()


class Spreadsheets(unittest.TestCase):
    def test_numbers_as_six_languages_write_them(self):
        for lines in (
                ['name,Attic,Back', 'Ann,600.50,"1,299.50"', 'Ben,1000,900'],
                [';Attic;Back', 'Ann;600,50;1.299,50', 'Ben;1.000;900'],
                ['\ufeff;Attic;Back\r\n', 'Ann;600,50 €;1.299,50 €\r\n', 'Ben;1.000,00 €;900,00 €\r\n'],
                [';Attic;Back', 'Ann;600,50;1\u202f299,50', 'Ben;1\u00a0000;900'],
                [';Attic;Back', 'Ann;600,50 zł;1 299,50 zł', 'Ben;1000;900'],
                [';Attic;Back', "Ann;600.50;1'299.50", 'Ben;1’000.00;900'],
                ['\tAttic\tBack', 'Ann\t600,5\t1299,5', 'Ben\t1000\t900'],
                ['sep=;', ';Attic;Back', 'Ann;600,50;1299,50', 'Ben;1000;900'],
                ['"";"Attic";"Back"', '"Ann";"€600,50";"1299,50"', '"Ben";"1000";"900"', ';;', ''],
                [';Attic;Back;;', 'Ann;600,50;1299,50;;', 'Ben;1000;900;;']):
            table = fairsplit.read_table(lines)
            self.assertEqual((table.members, table.columns, table.rows), (('Ann', 'Ben'), ('Attic', 'Back'), MONEY), lines)

    def test_whole_numbers_stay_whole(self):
        table = fairsplit.read_table([';Bett, groß;Tisch', 'Ann;1.000;0', 'Bö;;', 'Cy;500;500'])
        self.assertEqual((table.columns, table.rows), (('Bett, groß', 'Tisch'), ([1000, 0], None, [500, 500])))
        self.assertEqual({type(number) for row in table.rows if row for number in row}, {int})

    def test_an_error_names_its_line(self):
        for lines, said in (
                ([',x,y', 'Ann,600', 'Ben,500,500'], 'line 2: Ann has 1 values, and there are 2 columns'),
                ([',x,y', '', 'Ann,600,', 'Ben,500,500'], 'line 3: Ann has no number for y'),
                ([',x,y', 'Ann,600,400', 'Ben,many,500'], "line 3: Ben, x: 'many' is no number"),
                ([',x,y', 'Ann,600.505,400'], "line 2: Ann, x: '600.505' is no number"),
                ([';x;y', 'Ann;600,50;400', 'Ben;600.50;400'], "line 3: Ben, x: '600.50' is no number"),
                (['sep=;', ';x;y', 'Ann;600;a'], "line 3: Ann, y: 'a' is no number"),
                ([], 'there is nothing in the table'), (['\n', ''], 'there is nothing in the table')):
            with self.assertRaisesRegex(ValueError, said):
                fairsplit.read_table(lines)

    def test_a_string_is_no_table(self):
        for text in (',x,y\nAnn,600,400', b',x,y'):
            with self.assertRaises(TypeError):
                fairsplit.read_table(text)

    def test_a_path_is_read(self):
        with tempfile.TemporaryDirectory() as folder:
            path = Path(folder) / 'bids.csv'
            path.write_bytes('\ufeff;Attic;Back\r\nÄnn;600;300\r\nBen;500;400\r\n'.encode())
            self.assertEqual(fairsplit.rent(900, fairsplit.read_table(path))['Änn'].pays, 550)
            path.write_bytes('\ufeff;x;y\r\nÄnn;600;300\r\n'.encode('utf-16'))
            with self.assertRaisesRegex(ValueError, 'save it as CSV UTF-8'):
                fairsplit.read_table(path)


class Command(unittest.TestCase):
    def test_goods(self):
        status, said = printed(EXAMPLES / 'estate.csv', '--scale')
        self.assertEqual((status, said.splitlines()[0]), (0, 'goods goods'))
        status, certificate = printed(EXAMPLES / 'estate.csv', '--scale', '--certificate')
        self.assertTrue(fairsplit.check(certificate))

    def test_an_estate(self):
        with tempfile.TemporaryDirectory() as folder:
            path = Path(folder) / 'bids.csv'
            rows = fairsplit.draw.estate(12, 24, 5, alike=True, step=100)
            path.write_text('\n'.join([','.join(['', *map(str, range(24))]), *(','.join(map(str, ['m', *row])) for row in rows[:6])]))
            status, certificate = printed(path, '--certificate')
            self.assertEqual((status, certificate[:12]), (0, 'fairsplit 2\n'))
            path.write_text('\n'.join([','.join(['', *map(str, range(24))]), *(','.join(map(str, ['m', *row])) for row in rows)]))
            status, said = printed(path, '--steps', '50')
            self.assertEqual((status, said.splitlines()[-1]), (1, 'not proved to be the best'))
            self.assertEqual(printed(path, '--steps', '50', '--certificate'),
                             (1, 'fairsplit: the search takes more than 50 steps; `best` is the best division that it found\n'))

    def test_a_rent(self):
        with tempfile.TemporaryDirectory() as folder:
            path = Path(folder) / 'bids.csv'
            path.write_text(';Attic;Back\nAnn;600;300\nBen;500;400\n')
            status, said = printed(path, '--rent', '900')
            self.assertEqual((status, said.splitlines()[3]), (0, '1 Ann: room 1 Attic, price 550, pays 550, utility 50'))
            status, said = printed(path, '--rent', '900.00')
            self.assertEqual(said.splitlines()[3], '1 Ann: room 1 Attic, price 55000, pays 55000, utility 5000')
            self.assertEqual(printed(path, '--rent', '901'), (3, "fairsplit: Ann's bids add up to 900, not 901\n"))
            self.assertEqual(printed(path, '--rent', 'much')[0], 2)
        self.assertEqual(printed(Path(folder) / 'none.csv')[0], 2)


class Scaling(unittest.TestCase):
    def test_points_add_up_and_what_was_rounded_is_told(self):
        points = fairsplit.scaled({'Ann': {'x': 1, 'y': 1, 'z': 1}, 'Ben': {'z': 0.5, 'x': Decimal('1.5'), 'y': Fraction(2)}, 'Cy': None})
        self.assertEqual(points.table.rows, ([334, 333, 333], [375, 500, 125], None))
        self.assertEqual(points.rounded, ((Fraction(2, 3), Fraction(-1, 3), Fraction(-1, 3)), (0, 0, 0), ()))
        self.assertEqual((points.most, points.by_name()['Ann']['x']), (Fraction(2, 3), Fraction(2, 3)))
        self.assertEqual(fairsplit.scaled(points.table).table, points.table)
        self.assertEqual(len(fairsplit.goods(points.table)), 2)

    def test_what_can_not_be_scaled(self):
        for bids, said in (({'Ann': [0, 0]}, 'Ann has no points at all'), ({'Ann': [-1, 2]}, 'Ann, good 1: -1 is below 0'), ({'Ann': [float('inf'), 1]}, 'Ann, good 1: inf')):
            with self.assertRaisesRegex(ValueError, said):
                fairsplit.scaled(bids)
        for bids in ([['1', 2]], [[True, 2]], [1, 2]):
            with self.assertRaises(TypeError):
                fairsplit.scaled(bids)

    def test_the_command_says_how_it_scales(self):
        with tempfile.TemporaryDirectory() as folder:
            table = Path(folder, 'points.csv')
            table.write_text('name,Piano,Car\nAda,40,60\nBo,50,50\n', encoding='utf-8')
            self.assertEqual(printed(table), (3, "fairsplit: Ada's points add up to 100, not 1000; --scale makes points add up\n"))
            self.assertEqual(printed(table, '--scale')[0], 0)


if __name__ == '__main__':
    unittest.main()
