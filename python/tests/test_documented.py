"""The examples of the docstrings, what the docstrings say, and what a type checker says of a user's file."""
import doctest
import importlib
import inspect
import pkgutil
import re
import shutil
import subprocess
import tempfile
import unittest
from pathlib import Path

import fairsplit

HERE = Path(__file__).resolve().parent
MODULES = [importlib.import_module(f'fairsplit.{module.name}') for module in pkgutil.iter_modules(fairsplit.__path__)]


def public():
    """The public functions, by name."""
    yield from ((f'fairsplit.{name}', getattr(fairsplit, name)) for name in fairsplit.__all__ if inspect.isfunction(getattr(fairsplit, name)))
    for module in (fairsplit.draw, fairsplit.numbers):
        yield from ((f'{module.__name__}.{name}', thing) for name, thing in vars(module).items() if not name.startswith('_') and inspect.getmodule(thing) is module
                    and inspect.isfunction(thing))


class Docstrings(unittest.TestCase):
    def test_examples(self):
        tried = 0
        for module in MODULES:
            result = doctest.testmod(module)
            self.assertEqual(result.failed, 0, module.__name__)
            tried += result.attempted
        self.assertGreater(tried, 40)

    def test_examples_of_the_document(self):
        text = (HERE.parents[1] / 'docs' / 'LIBRARY.md').read_text().replace('\n```\n', '\n\n')
        result = doctest.DocTestRunner().run(doctest.DocTestParser().get_doctest(text, {}, 'LIBRARY.md', None, 0))
        self.assertEqual(result.failed, 0)
        self.assertGreater(result.attempted, 30)

    def test_the_document_names_every_attribute(self):
        document = (HERE.parents[1] / 'docs' / 'LIBRARY.md').read_text()
        things = [thing for name in fairsplit.__all__ if inspect.isclass(thing := getattr(fairsplit, name)) and not issubclass(thing, Exception)]
        names = {name for thing in things for name in [*dir(thing), *getattr(thing, '__annotations__', ())] if not name.startswith('_')}
        self.assertEqual([name for name in sorted(names | set(fairsplit.__all__)) if not re.search(rf'\b{name}\b', document)], [])

    def test_each_public_function_has_its_sections(self):
        for name, function in public():
            for section in ('Parameters\n', 'Returns\n', 'Examples\n', *(() if '.draw.' in name else ('Raises\n',))):
                self.assertIn(section, inspect.getdoc(function), name)


@unittest.skipUnless(shutil.which('mypy'), 'mypy is not installed')
class Types(unittest.TestCase):
    def test_the_package_and_a_users_file(self):
        with tempfile.TemporaryDirectory() as folder:
            shutil.copytree(Path(fairsplit.__file__).parent, f'{folder}/fairsplit')
            shutil.copy(HERE / 'typed_user.py', folder)
            ran = subprocess.run(['mypy', '--strict', '--no-incremental', '--cache-dir', '/dev/null', '--python-version', '3.9', 'fairsplit', 'typed_user.py'],
                                 capture_output=True, text=True, cwd=folder)
        self.assertEqual(ran.returncode, 0, ran.stdout + ran.stderr)


if __name__ == '__main__':
    unittest.main()
