"""The results of the calls of `str_indices`, of their kernels at both types of chunks with each number of leading
bytes, and of `ropey::str_utils`, on bin/rope-driver.

The expected results come from plain loops over the characters; results that are known from elsewhere are listed here.
"""
import functools
import itertools
from bisect import bisect_right

import rope_model
from rope_model import hexed
from rope_rows import check

# The characters that break lines, by module. CR LF is one break if both are among them.
LINES = {"lines": "\n\v\f\r\x85\u2028\u2029", "lines_crlf": "\r\n", "lines_lf": "\n"}

LETTERS = ["\r", "\n", "\v", "a", "\x85", "\u2028", "é", "せ", "🐸"]
FROGS = "Hel🐸lo world! こん🐸にち🐸🐸は!"
HERE = "Here\r\nare\r\nsome\r\nwords"
MIXED = "a\r\n\u2028\r"

# The results that are known from elsewhere, by their position in an answer: a text, its counts, an index, and results.
COUNTS = ["chars", "units", "surrogate pairs", "lines", "lines_crlf", "lines_lf", "break", "break_crlf", "break_lf"]
PLACES = ["chars_from", "chars_to", "units_from", "units_to", "lines_from", "lines_to", "crlf_from", "crlf_to", "lf_from", "lf_to"]
PLACES += ["byte_to_char", "byte_to_line", "char_to_byte", "char_to_line", "line_to_byte", "line_to_char"]
KNOWN_COUNTS = [
    (FROGS, "chars", 23),
    (FROGS, "units", 27),
    (FROGS, "surrogate pairs", 4),
    ("", "units", 0),
    ("\uffff\U00010000\U0010ffff", "surrogate pairs", 2),
    (MIXED, "lines", 3),
    (MIXED, "lines_crlf", 2),
    (MIXED, "lines_lf", 1),
    ("\n\v\f\r\x85\u2028\u2029", "lines", 7),
    ("\r\n", "lines", 1),
    ("\n\r", "lines", 2),
    ("¥©ˆ…\u2027\u202a", "lines", 0),
    ("a\r\nb", "lines", 1),
    ("a\r\nb", "lines_crlf", 1),
    ("\r\n" * 32, "lines", 32),
    ("\r\n" * 32, "lines_crlf", 32),
    ("\r\n" * 32, "lines_lf", 32),
    ("\n" + "\r\n" * 31, "lines", 32),
    ("\n" + "\r\n" * 31, "lines_crlf", 32),
    ("\n" + "\r\n" * 31, "lines_lf", 32),
    ("ab\r\nc\u2028\r", "break", "2..4"),
    ("ab\r\nc\u2028\r", "break_crlf", "2..4"),
    ("ab\r\nc\u2028\r", "break_lf", "3..4"),
    ("é\u2028\n", "break", "2..5"),
    ("é\u2028\n", "break_crlf", "5..6"),
    ("\x85", "break", "0..2"),
    ("\r", "break", "0..1"),
    ("\r\r\n", "break", "0..1"),
    ("\r", "break_lf", "None"),
    ("", "break", "None"),
]
KNOWN_PLACES = [
    (HERE, "lines_from", {0: 0, 4: 0, 5: 0, 6: 1, 10: 1, 11: 2, 16: 2, 17: 3, 500: 3}),
    (HERE, "lines_to", {0: 0, 1: 6, 2: 11, 3: 17, 4: 22}),
    ("", "lines_to", {0: 0, 1: 0}),
    (MIXED, "lines_to", {1: 3, 2: 6, 3: 7}),
    ("\r\n", "lines_from", {1: 0, 2: 1}),
    (FROGS, "units_to", {3: 3, 4: 3, 5: 7, 17: 23, 18: 23, 19: 27, 27: 45, 28: 45}),
    (FROGS, "units_from", {3: 3, 4: 3, 6: 3, 7: 5, 23: 17, 45: 27, 500: 27}),
    (MIXED, "crlf_to", {2: 7}),
    (MIXED, "crlf_from", {6: 1}),
    (MIXED, "lf_to", {1: 3, 2: 7}),
    (MIXED, "lf_from", {2: 0, 7: 1}),
    (FROGS, "chars_from", {3: 3, 6: 3, 7: 4, 500: 23}),
    (FROGS, "chars_to", {4: 7, 23: 45, 24: 45}),
    ("a\r\né🐸", "byte_to_char", {0: 0, 2: 2, 3: 3, 4: 3, 5: 4, 9: 5}),
    ("a\r\né🐸", "byte_to_line", {0: 0, 2: 0, 3: 1, 4: 1, 5: 1, 9: 1}),
    ("a\r\né🐸", "char_to_byte", {0: 0, 2: 2, 3: 3, 4: 5, 5: 9, 6: 9}),
    ("a\r\né🐸", "char_to_line", {0: 0, 2: 0, 3: 1, 4: 1, 5: 1, 6: 1}),
    ("a\r\né🐸", "line_to_byte", {0: 0, 1: 3, 2: 9}),
    ("a\r\né🐸", "line_to_char", {0: 0, 1: 3, 2: 5}),
]


class Plain:
    """A text, and where its characters, its units and its lines start and end."""

    def __init__(self, text):
        ends = [0]
        for c in text:
            ends.append(ends[-1] + len(c.encode()))
        units = [place for place, c in enumerate(text) for _ in range(1 if c < "\U00010000" else 2)]
        self.text, self.ends, self.bytes = text, ends, ends[-1]
        self.unit_starts = [ends[place] for place in units]
        self.unit_ends = [ends[place + 1] for place in units]
        self.breaks = {name: self.ends_of(breaks) for name, breaks in LINES.items()}
        self.rope_breaks = self.ends_of(rope_model.BREAKS)

    def ends_of(self, breaks):
        """Where breaks end. A CR before an LF ends none."""
        text = self.text
        found = [k for k, c in enumerate(text) if c in breaks and text[k : k + 2] != "\r\n"]
        return [self.ends[k + 1] for k in found]

    def first_break(self, breaks):
        """The bytes of the first break: with the CR if CR breaks lines."""
        for place, c in enumerate(self.text):
            if c in breaks:
                size = 2 if self.text[place : place + 2] == "\r\n" else 1
                return f"{self.ends[place]}..{self.ends[place + size]}"
        return "None"

    def counts(self):
        counts = [len(self.text), len(self.unit_ends), len(self.unit_ends) - len(self.text)]
        counts += [len(self.breaks[name]) for name in LINES] + [self.first_break(breaks) for breaks in LINES.values()]
        return "".join(f"{count} " for count in counts)

    def byte_of(self, ends, idx):
        """Where the item with an index starts, given the ends of all items."""
        return 0 if idx == 0 else ends[idx - 1] if idx <= len(ends) else self.bytes

    def answers(self, idx):
        """The answer for an index, with any number of leading bytes."""
        char_ends = self.ends[1:]
        unit_start = self.unit_starts[idx] if idx < len(self.unit_starts) else self.bytes
        by_char = [bisect_right(char_ends, idx), self.byte_of(char_ends, idx)]
        by_unit = [bisect_right(self.unit_ends, idx), unit_start]
        by_line = [[bisect_right(ends, idx), self.byte_of(ends, idx)] for ends in self.breaks.values()]
        places = by_char + by_unit + sum(by_line, []) + self.in_ropes(idx)
        kernels = [len(self.text), by_char[1], len(self.unit_ends) - len(self.text), by_unit[1]]
        for ends, (_, start) in zip(self.breaks.values(), by_line):
            kernels += [len(ends), start]
        return "".join(f"{number} " for number in places + 2 * kernels)

    def in_ropes(self, idx):
        """The same with the breaks of ropes."""
        char_ends, ends = self.ends[1:], self.rope_breaks
        start, line_start = self.byte_of(char_ends, idx), self.byte_of(ends, idx)
        by_byte = [bisect_right(char_ends, idx), bisect_right(ends, idx)]
        return by_byte + [start, bisect_right(ends, start), line_start, bisect_right(char_ends, line_start)]


def row(text, indices, leadings):
    """A row that requests each index with each number of leading bytes."""
    plain = Plain(text)
    answers = "".join(f"{plain.answers(idx)};" * len(leadings) for idx in indices)
    asks = " ".join(f"{idx},{leading}" for idx in indices for leading in leadings)
    return f"indices {hexed(text)} {asks}", f"{plain.counts()};{answers}"


def every_short_text():
    for length in range(5):
        for letters in itertools.product(LETTERS, repeat=length):
            text = "".join(letters)
            every = range(len(text.encode()) + 2)
            yield row(text, every, every)


def breaks_at_each_place():
    """A break, or a long character, at each offset of texts of a few chunks."""
    for length in range(15, 50):
        for place, part in itertools.product(range(length), ("\n", "\r\n", "\r", "\x85", "\u2029", "🐸")):
            text = "a" * place + part + "é" * ((length - place) // 2)
            yield row(text, (place, 1), range(len(text.encode()) + 2))


def more_than_a_lane_holds():
    for text, count, indices in (("\n", 6_000, (5_999, 6_000)), ("🐸", 5_000, (4_999, 9_999, 10_000)), ("\u2028", 6_000, (5_999, 6_001))):
        line, due = row(text * count, indices, (0, 1, 3))
        yield line.replace(hexed(text) * count, f"{hexed(text)}*{count}"), due


def wrong_count(name, due, line):
    answer = line.split(";")[0].split(" ")[COUNTS.index(name)]
    if answer != str(due):
        yield f"{name}: {answer}, not {due}"


def wrong_places(name, dues, line):
    for (idx, due), answer in zip(dues.items(), line.split(";")[1:]):
        told = answer.split(" ")[PLACES.index(name)]
        if told != str(due):
            yield f"{name} {idx}: {told}, not {due}"


def known():
    for text, name, due in KNOWN_COUNTS:
        yield f"indices {hexed(text)} 0,0", functools.partial(wrong_count, name, due)
        yield row(text, (0, due if isinstance(due, int) else 1), range(min(len(text.encode()) + 2, 70)))
    for text, name, dues in KNOWN_PLACES:
        yield f"indices {hexed(text)} {' '.join(f'{idx},0' for idx in dues)}", functools.partial(wrong_places, name, dues)
        yield row(text, list(dues), (0, 1, 2))


def test_all():
    check("texts whose counts and places are known from outside", known())
    check("texts of up to four letters, at each index with each number of leading bytes", every_short_text())
    check("texts with a break at each place, with each number of leading bytes", breaks_at_each_place())
    check("texts with more in a lane than it holds", more_than_a_lane_holds())
