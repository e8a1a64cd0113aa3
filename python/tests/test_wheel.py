"""Tests of what makes the wheel. They need no library: a few bytes stand for the shared object."""
import importlib.util
import os
import tempfile
import unittest
import zipfile
from pathlib import Path
from unittest import mock

SPEC = importlib.util.spec_from_file_location('wheel_backend', Path(__file__).resolve().parents[1] / 'wheel_backend.py')
wheel_backend = importlib.util.module_from_spec(SPEC)
SPEC.loader.exec_module(wheel_backend)

HEAD = b'\x7fELF\x02' + bytes(13) + b'\x3e\x00'  # of an ELF file for x86-64
OBJECT = HEAD + b'GLIBC_2.2.5\0GLIBC_2.34\0GLIBC_2.4\0'


class Wheels(unittest.TestCase):
    def setUp(self):
        folder = tempfile.TemporaryDirectory()
        self.addCleanup(folder.cleanup)
        self.folder = Path(folder.name)
        self.object = self.folder / 'library'
        self.object.write_bytes(OBJECT)
        named = mock.patch.dict(os.environ, FAIRSPLIT_LIBRARY=str(self.object))
        named.start()
        self.addCleanup(named.stop)

    def built(self, name):
        """The path of a wheel that is built into a folder of this name."""
        (self.folder / name).mkdir(exist_ok=True)
        return self.folder / name / wheel_backend.build_wheel(self.folder / name)

    def refusal(self):
        """Why no wheel can be built."""
        with self.assertRaises(wheel_backend.CannotBuild) as caught:
            self.built('refused')
        return str(caught.exception)

    def test_the_tag_names_the_newest_c_library_that_the_object_needs(self):
        self.assertTrue(self.built('one').name.endswith('-py3-none-manylinux_2_34_x86_64.whl'))

    def test_the_same_files_give_the_same_bytes(self):
        self.assertEqual(self.built('one').read_bytes(), self.built('two').read_bytes())

    def test_the_package_the_types_and_the_object_are_in_it(self):
        names = zipfile.ZipFile(self.built('one')).namelist()
        for name in ('__init__.py', '_solving.py', 'py.typed', 'libfairsplit.so.1'):
            self.assertIn(f'fairsplit/{name}', names)

    def test_an_editable_one_leads_to_the_checkout(self):
        wheel = zipfile.ZipFile(self.folder / wheel_backend.build_editable(self.folder))
        self.assertEqual(wheel.read('fairsplit.pth').decode(), f'{wheel_backend.HERE}\n')
        self.assertFalse([name for name in wheel.namelist() if name.startswith('fairsplit/')])

    def test_the_version_and_the_description_are_in_it(self):
        said = zipfile.ZipFile(self.built('one')).read(f'fairsplit-{wheel_backend.version()}.dist-info/METADATA').decode()
        self.assertIn(f'Version: {wheel_backend.version()}\n', said)
        self.assertIn('# fairsplit as a library', said)

    def test_another_platform_is_refused_with_one_sentence(self):
        with mock.patch('platform.machine', lambda: 'aarch64'):
            self.assertEqual(self.refusal(), 'fairsplit needs Linux on x86-64, and this is Linux on aarch64.')
        with mock.patch('platform.system', lambda: 'Darwin'):
            self.assertEqual(self.refusal(), 'fairsplit needs Linux on x86-64, and this is Darwin on x86_64.')

    def test_what_is_no_such_object_is_refused_with_one_sentence(self):
        self.object.write_bytes(OBJECT.replace(b'\x3e', b'\xb7'))
        self.assertIn('needs a shared object for Linux on x86-64', self.refusal())
        self.object.unlink()
        self.assertIn('needs its shared object', self.refusal())


if __name__ == '__main__':
    unittest.main()
