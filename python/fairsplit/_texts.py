"""The lines of the library's texts, as numbers."""
from __future__ import annotations

import re
from fractions import Fraction
from typing import List


def rows_of(text: str, word: str) -> List[List[str]]:
    """The words behind a word, of each line that begins with it."""
    return [line.split() for line in re.findall(rf'^{word} (.*)$', text, re.MULTILINE)]


def words_of(text: str, word: str) -> List[str]:
    """The words behind the word with which a line begins."""
    found = re.search(rf'^{word} (.*)$', text, re.MULTILINE)
    assert found, f'the library wrote no line {word}'
    return found[1].split()


def number_of(text: str, word: str) -> int:
    """The number behind that word."""
    return int(words_of(text, word)[0])


def numbers_of(text: str, word: str) -> List[List[int]]:
    """The numbers behind a word, of each line that begins with it."""
    return [list(map(int, row)) for row in rows_of(text, word)]


def places_in(text: str, word: str) -> List[int]:
    """The numbers behind that word, which count from 1, as places in a list."""
    return [int(number) - 1 for number in words_of(text, word)]


def fractions_of(text: str, word: str) -> List[Fraction]:
    """The fractions behind that word."""
    return list(map(Fraction, words_of(text, word)))
