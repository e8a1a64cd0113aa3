"""The version: that of the installed package, or in a checkout that of the library."""
from importlib import metadata
from pathlib import Path

try:
    __version__ = metadata.version('fairsplit')
except metadata.PackageNotFoundError:
    __version__ = (Path(__file__).resolve().parents[2] / 'include' / 'VERSION').read_text().strip()
