"""A small model of ropes and their slices, over a `str`: the expected answers of bin/rope-driver.

A text is a `str`, and a text in chunks the tuple of these. Indices count from 0, by bytes of UTF-8, characters, UTF-16
code units or lines.
"""
import functools
import re
from bisect import bisect_right
from itertools import accumulate

# The characters that break lines. CR LF is one break. Ropes define this set once, and so does this model.
BREAKS = "\r\n"

MOST_BYTES = 984  # of a chunk
GREATEST = 2**64 - 1  # of all indices
CHUNK_KINDS = ("chunks_at_byte", "chunks_at_char", "chunks_at_line_break")


def hexed(text):
    return text.encode().hex()


def ends_break(text, place):
    """Whether a line break ends after the character with this index."""
    return text[place] in BREAKS and text[place : place + 2] != "\r\n"


def order(left, right):
    """The order of two texts, by their bytes."""
    left, right = left.encode(), right.encode()
    return "Less" if left < right else "Greater" if left > right else "Equal"


def compared(left, right):
    """The order of two texts, whether they are equal, and whether their hashes are."""
    is_equal = "true" if left == right else "false"
    return f"{order(left, right)} {is_equal} {is_equal}"


def ok(value):
    return f"Ok({value})"


def option(value):
    return "None" if value is None else f"Some({value})"


def refused(error, *numbers):
    return f"{error}({', '.join(map(str, numbers))})"


def breaks_in(text):
    return sum(map(text.count, BREAKS)) - text.count("\r\n")


def lengths(text):
    """The number of bytes, characters, units and lines of a text."""
    units = len(text) + sum(c >= "\U00010000" for c in text)
    return f"{len(text.encode())} {len(text)} {units} {breaks_in(text) + 1}"


def range_refusal(name, length, start, end):
    """Why a range from one index to another is refused, if it is. An index is None if the range is open there."""
    if start is not None and end is not None and end < start:
        return refused(f"{name}RangeInvalid", start, end)
    if max(start or 0, end or 0) > length:
        return refused(f"{name}RangeOutOfBounds", option(start), option(end), length)
    return None


def byte_range_refusal(data, start, end):
    """Why a range of a text's bytes is refused, if it is."""
    why = range_refusal("Byte", len(data), start, end)
    if why is None and any(0x80 <= data[place] < 0xC0 for place in (start, end) if place is not None and place < len(data)):
        return refused("ByteRangeNotCharBoundary", option(start), option(end))
    return why


def with_plain_places(told):
    """The results of the `try_` and `get_` methods for an index, and then of the plain methods, each if one of those
    has a result."""
    return told + "".join(f"{number} " for number in re.findall(r"(?:Ok|Some)\((\d+)\)", told))


def with_plain_chunks(told):
    """The chunks that are shown, or why there are none, and then the existing ones once more."""
    return told + "".join(f"{chunk}|" for chunk in told.split("|") if "/" in chunk)


class Text:
    """A text, and the number of bytes, units and lines before each of its characters and at its end."""

    def __init__(self, text):
        self.text, self.chars = text, len(text)
        self.bytes_to = [0, *accumulate(len(c.encode()) for c in text)]
        self.units_to = [0, *accumulate(1 if c < "\U00010000" else 2 for c in text)]
        self.starts = [0] + [place + 1 for place in range(len(text)) if ends_break(text, place)]
        self.start_bytes = [self.bytes_to[start] for start in self.starts]
        self.bytes, self.units, self.lines = self.bytes_to[-1], self.units_to[-1], len(self.starts)

    # Each of these has a result for any index up to the length.

    def byte_to_char(self, byte):
        return bisect_right(self.bytes_to, byte) - 1

    def byte_to_line(self, byte):
        return bisect_right(self.start_bytes, byte) - 1

    def char_to_line(self, char):
        return bisect_right(self.starts, char) - 1

    def unit_to_char(self, unit):
        return bisect_right(self.units_to, unit) - 1

    def line_to_char(self, line):
        return self.starts[line] if line < self.lines else self.chars

    def line(self, line):
        return self.text[self.starts[line] : self.line_to_char(line + 1)]

    def line_texts(self):
        return [self.line(line) for line in range(self.lines)]

    # The answers of the program.

    def places(self, idx):
        """The conversions of an index, as that of a byte, a character, a unit and a line."""

        def up_to(length, error, *convert):
            found = [ok(each(idx)) if idx <= length else f"Err({refused(error, idx, length)})" for each in convert]
            return found

        by_byte = up_to(self.bytes, "ByteIndexOutOfBounds", self.byte_to_char, self.byte_to_line)
        to_byte, to_unit = self.bytes_to.__getitem__, self.units_to.__getitem__
        by_char = up_to(self.chars, "CharIndexOutOfBounds", to_byte, self.char_to_line, to_unit)
        by_unit = up_to(self.units, "Utf16IndexOutOfBounds", self.unit_to_char)
        by_line = up_to(self.lines, "LineIndexOutOfBounds", lambda line: to_byte(self.line_to_char(line)), self.line_to_char)
        byte = self.text.encode()[idx] if idx < self.bytes else None
        char = ord(self.text[idx]) if idx < self.chars else None
        line = part(self.line(idx)) if idx < self.lines else "None|"
        return with_plain_places(" ".join(by_byte + by_char + by_unit + by_line + [option(byte), option(char), line]))

    def part_of(self, name, start, end):
        """The part of characters or of bytes from one index to another, each None if open, or why there is none."""
        length = self.chars if name == "Char" else self.bytes
        why = range_refusal(name, length, start, end)
        if why:
            return None, why
        places = [0 if start is None else start, length if end is None else end]
        if name == "Byte":
            chars = [self.byte_to_char(place) for place in places]
            if [self.bytes_to[char] for char in chars] != places:
                return None, refused("ByteRangeNotCharBoundary", option(start), option(end))
            places = chars
        return self.text[places[0] : places[1]], None

    def parts(self, start, end, tells_why=True):
        """The parts of the six kinds of ranges, of characters and then of bytes."""
        last = min(end + 1, GREATEST)
        ranges = [(start, end), (start, last), (start, None), (None, end), (None, last), (None, None)]
        found = [self.part_of(name, *ends) for name in ("Char", "Byte") for ends in ranges]
        return "".join((f"{why}|" if tells_why else "None|") if why else part(text) for text, why in found)


def part(text):
    return f"{hexed(text)}/{breaks_in(text) + 1}|"


@functools.lru_cache(maxsize=5_000)
def text_of(text):
    return Text(text)


def clipped(pieces, start, end):
    """The part of the chunks from one character to another."""
    found, at = [], 0
    for piece in pieces:
        inside = piece[max(start - at, 0) : max(end - at, 0)]
        found += [inside] if inside else []
        at += len(piece)
    return tuple(found)


class Cut:
    """A text in chunks."""

    def __init__(self, pieces):
        self.pieces = pieces
        self.char_starts = [0, *accumulate(map(len, pieces))]
        self.byte_starts = [0, *accumulate(len(piece.encode()) for piece in pieces)]
        self.breaks_by = list(accumulate(map(breaks_in, pieces)))  # no CR LF is split

    @functools.cached_property
    def whole(self):
        return text_of("".join(self.pieces))

    def holding(self, name, idx):
        """The number of the chunk that contains a byte or a character, or by whose end this number of breaks have
        ended; or of chunks; or None past the length."""
        whole, count = self.whole, len(self.pieces)
        if idx > {"byte": whole.bytes, "char": whole.chars, "line_break": whole.lines}[name]:
            return None
        if name == "line_break":
            return next((k for k in range(count) if self.breaks_by[k] >= idx), count)
        return bisect_right(self.byte_starts if name == "byte" else self.char_starts, idx) - 1 if count else 0

    def before(self, number):
        return f"{self.byte_starts[number]}/{self.char_starts[number]}/{self.breaks_by[number - 1] if number else 0}"

    def shown(self, name, idx):
        """The chunk that a call shows."""
        number = self.holding(name, idx)
        if number is None:
            return "None|"
        number = max(min(number, len(self.pieces) - 1), 0)
        text = self.pieces[number] if self.pieces else ""
        return f"{hexed(text)}/{self.before(number)}|"

    def chunk(self, idx, tells_why=True):
        at_byte = self.shown("byte", idx)
        if tells_why and idx > self.whole.bytes:
            at_byte = refused("ByteIndexOutOfBounds", idx, self.whole.bytes) + "|"
        return with_plain_chunks(at_byte + self.shown("char", idx) + self.shown("line_break", idx))

    def walk(self, kind, place, script):
        """The items of a walk over items of a kind, from before one of them."""
        if kind.startswith("chunks_at_"):
            number = self.holding(kind[10:], place)
            items = [hexed(piece) for piece in self.pieces]
            return "None" if number is None else f"{self.before(number)},{walk(items, number, script, False)}"
        items = items_of(kind, self.whole.text)
        return walk(items, place, script) if place <= len(items) else "None"

    def slice(self, start, end):
        return Cut(clipped(self.pieces, start, end))

    def as_str(self):
        return hexed(self.whole.text) if len(self.pieces) <= 1 else "None"


@functools.lru_cache(maxsize=20_000)
def items_of(kind, text):
    if kind == "bytes":
        return [f"{byte:02x}" for byte in text.encode()]
    if kind == "chars":
        return [f"{ord(c):x}" for c in text]
    return [hexed(line) for line in text_of(text).line_texts()]


def walk(items, place, script, tells_left=True):
    """The items of a walk by a script. It is between two items."""
    found, direction = [], 1
    for letter in script:
        told = ""
        if letter == "r":
            direction = -direction
        elif letter == "l":
            left = len(items) - place if direction == 1 else place
            told = option(left if tells_left else None)
        elif letter in "np":
            step = direction if letter == "n" else -direction
            item = place if step == 1 else place - 1
            is_there = 0 <= item < len(items)
            told = items[item] if is_there else "-"
            place += step if is_there else 0
        found.append(told + ",")
    return "".join(found)
