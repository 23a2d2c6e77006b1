"""Texts of the ropes in tests, and the leaves into which they are split."""
import itertools
import re

from rope_model import MOST_BYTES

LETTERS = "\r\naé🐸"

# Units that long texts repeat, of characters of one to four bytes.
UNITS = ("a", "é", "せ", "🐸", "\r\n")


def small_texts(letters, length):
    return ("".join(letters) for letters in itertools.product(letters, repeat=length))


def cuttings(text):
    """A text split in every way into leaves, with no CR LF split."""
    places = [place for place in range(1, len(text)) if text[place - 1 : place + 1] != "\r\n"]
    for size in range(len(places) + 1):
        for chosen in itertools.combinations(places, size):
            ends = [0, *chosen, len(text)]
            yield tuple(text[start:end] for start, end in zip(ends, ends[1:])) if text else ()


def shortest_leaves(text):
    """A text in leaves as short as possible."""
    return tuple(re.findall("(?s)\r\n|.", text))


def pairs(high):
    """All pairs of offsets in order, up to `high`."""
    return itertools.combinations_with_replacement(range(high + 1), 2)


def full(unit, size):
    """A text with this number of bytes: some `a`, and then copies of a unit."""
    bytes_in_unit = len(unit.encode())
    return "a" * (size % bytes_in_unit) + unit * (size // bytes_in_unit)


def text_at_random(chance, length):
    return "".join(chance.choices(["\r", "\n", "é", "せ", "🐸", "a", "b", "\r\n", "\u2028"], k=length))


def cut_at_random(chance, text, most=MOST_BYTES):
    """A text in leaves of random lengths."""
    pieces, at = [], 0
    while at < len(text):
        end = at + chance.randint(1, max(most // 4, 1))
        if text[end - 1 : end + 1] == "\r\n":
            end += 1
        pieces.append(text[at:end])
        at = end
    return tuple(pieces)
