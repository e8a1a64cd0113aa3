"""Makes the wheel of fairsplit by the standard library alone, so that pip can build it without a network.

The wheel holds the package and the shared object: that of the variable FAIRSPLIT_LIBRARY, or include/out/libfairsplit.so.1, which include/build
makes. Its tag says which C library the object needs. The same files give the same bytes.
"""
import base64
import hashlib
import os
import platform
import re
import zipfile
from pathlib import Path

HERE = Path(__file__).resolve().parent
PACKAGE = HERE / 'fairsplit'
OBJECT = 'libfairsplit.so.1'
X86_64 = 62  # e_machine of an ELF file
FIRST_DAY = (1980, 1, 1, 0, 0, 0)


class CannotBuild(Exception):
    """Why there is no wheel, in one sentence."""


def version():
    """The version of the library."""
    return (HERE.parent / 'include' / 'VERSION').read_text().strip()


def object_bytes():
    """The shared object, if this platform can load it."""
    if platform.system() != 'Linux' or platform.machine() != 'x86_64':
        raise CannotBuild(f'fairsplit needs Linux on x86-64, and this is {platform.system()} on {platform.machine()}.')
    path = Path(os.environ.get('FAIRSPLIT_LIBRARY') or HERE.parent / 'include' / 'out' / OBJECT)
    if not path.is_file():
        raise CannotBuild(f'fairsplit needs its shared object, and {path} is not there: make it with include/build, or name another in FAIRSPLIT_LIBRARY.')
    data = path.read_bytes()
    if data[:5] != b'\x7fELF\x02' or int.from_bytes(data[18:20], 'little') != X86_64:
        raise CannotBuild(f'fairsplit needs a shared object for Linux on x86-64, and {path} is none.')
    return data


def tag(data):
    """The tag of the oldest platform that runs the object: that with the newest C library of which it names a version."""
    versions = [(int(major), int(minor)) for major, minor in re.findall(rb'GLIBC_(\d+)\.(\d+)', data)]
    major, minor = max(versions, default=(2, 17))
    return f'py3-none-manylinux_{major}_{minor}_x86_64'


def metadata():
    """The text of METADATA."""
    return (f'Metadata-Version: 2.1\nName: fairsplit\nVersion: {version()}\n'
            'Summary: Fair divisions of rents, goods and fares by proved code, and the judges of their certificates\n'
            'Requires-Python: >=3.9\nDescription-Content-Type: text/markdown\n\n' + (HERE.parent / 'docs' / 'LIBRARY.md').read_text())


def package_files(data):
    """The name in the wheel and the bytes of each file of the package."""
    for path in sorted(PACKAGE.iterdir()):
        if path.suffix in ('.py', '.typed'):
            yield f'fairsplit/{path.name}', path.read_bytes()
    yield f'fairsplit/{OBJECT}', data


def files_about(data):
    """The same of the files that describe the wheel, but RECORD."""
    folder = f'fairsplit-{version()}.dist-info'
    yield f'{folder}/METADATA', metadata().encode()
    yield f'{folder}/WHEEL', f'Wheel-Version: 1.0\nGenerator: wheel_backend\nRoot-Is-Purelib: false\nTag: {tag(data)}\n'.encode()


def record_line(name, data):
    """The row of a file in RECORD."""
    digest = base64.urlsafe_b64encode(hashlib.sha256(data).digest()).rstrip(b'=').decode()
    return f'{name},sha256={digest},{len(data)}\n'


def write_wheel(wheel_directory, data, files):
    """Writes a wheel of these files and those about it into a folder, and answers its name."""
    name = f'fairsplit-{version()}-{tag(data)}.whl'
    record = f'fairsplit-{version()}.dist-info/RECORD'
    lines = []
    with zipfile.ZipFile(Path(wheel_directory) / name, 'w', zipfile.ZIP_DEFLATED) as wheel:
        for inner, content in [*files, *files_about(data)]:
            wheel.writestr(zipfile.ZipInfo(inner, FIRST_DAY), content, zipfile.ZIP_DEFLATED)
            lines.append(record_line(inner, content))
        wheel.writestr(zipfile.ZipInfo(record, FIRST_DAY), ''.join(lines) + f'{record},,\n', zipfile.ZIP_DEFLATED)
    return name


def build_wheel(wheel_directory, config_settings=None, metadata_directory=None):
    """Writes the wheel with the package and the object."""
    data = object_bytes()
    return write_wheel(wheel_directory, data, package_files(data))


def build_editable(wheel_directory, config_settings=None, metadata_directory=None):
    """Writes a wheel that leads to the package and the object in this checkout."""
    return write_wheel(wheel_directory, object_bytes(), [('fairsplit.pth', f'{HERE}\n'.encode())])


def build_sdist(sdist_directory, config_settings=None):
    """There is none: the object is proved and linked in a checkout of the repository."""
    raise CannotBuild('fairsplit has no source package: build the wheel in a checkout of its repository.')
