"""Slices of ropes, on bin/rope-driver, which reads rows, one a line.

The slices are those of trees with the leaves of a row, so that also texts of a few characters are in several chunks, in
all ways that split no CR LF. The expected answers come from the model of tests/models/rope_model.py; values that are known
from elsewhere are listed here. ROPE_DRIVER names another program than bin/rope-driver.
"""
import functools
import itertools
import random

from rope_model import (
    CHUNK_KINDS, GREATEST, MOST_BYTES, Cut, hexed, items_of, lengths, order, text_of, with_plain_chunks, with_plain_places,
)
from rope_rows import RopeRow, check, leaves_row
from rope_texts import LETTERS, cut_at_random, cuttings, pairs, shortest_leaves, small_texts, text_at_random


# Each character that breaks lines, and those that break none: the other line ends of Unicode, and their neighbours.
ALL_BREAKS = "a\nb\vc\fd\re\r\nf\x85g\u2028h\u2029i\t\x0e\x1f ¥\x84\x86\u2027\u202a"

# A text, a request for a rope of it and for a slice over it, and the answer, followed by that of the plain methods.
VECTORS = [
    ("\r\n", "lengths", "2 2 2 2"),
    ("\r\n", "places,0", "Ok(0) Ok(0) Ok(0) Ok(0) Ok(0) Ok(0) Ok(0) Ok(0) Some(13) Some(13) 0d0a/2|"),
    ("\r\n", "places,1", "Ok(1) Ok(0) Ok(1) Ok(0) Ok(1) Ok(1) Ok(2) Ok(2) Some(10) Some(10) /1|"),
    ("\r\n", "places,2", "Ok(2) Ok(1) Ok(2) Ok(1) Ok(2) Ok(2) Ok(2) Ok(2) None None None|"),
    (
        "\r\n",
        "places,3",
        "Err(ByteIndexOutOfBounds(3, 2)) Err(ByteIndexOutOfBounds(3, 2)) Err(CharIndexOutOfBounds(3, 2)) "
        "Err(CharIndexOutOfBounds(3, 2)) Err(CharIndexOutOfBounds(3, 2)) Err(Utf16IndexOutOfBounds(3, 2)) "
        "Err(LineIndexOutOfBounds(3, 2)) Err(LineIndexOutOfBounds(3, 2)) None None None|",
    ),
    ("🐸", "lengths", "4 1 2 1"),
    ("🐸", "places,0", "Ok(0) Ok(0) Ok(0) Ok(0) Ok(0) Ok(0) Ok(0) Ok(0) Some(240) Some(128056) f09f90b8/1|"),
    ("🐸", "places,1", "Ok(0) Ok(0) Ok(4) Ok(0) Ok(2) Ok(0) Ok(4) Ok(1) Some(159) None None|"),
    (
        "🐸",
        "places,2",
        "Ok(0) Ok(0) Err(CharIndexOutOfBounds(2, 1)) Err(CharIndexOutOfBounds(2, 1)) Err(CharIndexOutOfBounds(2, 1)) "
        "Ok(1) Err(LineIndexOutOfBounds(2, 1)) Err(LineIndexOutOfBounds(2, 1)) Some(144) None None|",
    ),
    (
        "🐸",
        "places,3",
        "Ok(0) Ok(0) Err(CharIndexOutOfBounds(3, 1)) Err(CharIndexOutOfBounds(3, 1)) Err(CharIndexOutOfBounds(3, 1)) "
        "Err(Utf16IndexOutOfBounds(3, 2)) Err(LineIndexOutOfBounds(3, 1)) Err(LineIndexOutOfBounds(3, 1)) Some(184) None None|",
    ),
    ("", "lengths", "0 0 0 1"),
    (
        "",
        "places,1",
        "Err(ByteIndexOutOfBounds(1, 0)) Err(ByteIndexOutOfBounds(1, 0)) Err(CharIndexOutOfBounds(1, 0)) "
        "Err(CharIndexOutOfBounds(1, 0)) Err(CharIndexOutOfBounds(1, 0)) Err(Utf16IndexOutOfBounds(1, 0)) "
        "Ok(0) Ok(0) None None None|",
    ),
    ("", "chunk,0", "/0/0/0|/0/0/0|/0/0/0|"),
    ("", "chunks_at_byte,0,npl", "0/0/0,-,-,None,"),
    ("", "lines,0,lnp", "Some(1),,,"),
    ("one\r\ntwo🐸", "lengths", "12 9 10 2"),
    ("one\r\ntwo🐸", "chunk,12", "6f6e650d0a74776ff09f90b8/0/0/0|None|None|"),
    ("one\r\ntwo", "chunks_at_byte,8,pn", "8/8/1,6f6e650d0a74776f,6f6e650d0a74776f,"),
    ("one\r\ntwo\n", "lines,0,lnlnlnln", "Some(3),6f6e650d0a,Some(2),74776f0a,Some(1),,Some(0),-,"),
    ("aé🐸", "chars,1,ncrnlrrn", "e9,,,e9,Some(1),,,61,"),
    ("aé", "bytes,0,lpncnlrnn", "Some(3),-,61,,c3,Some(1),,c3,61,"),
    ("aé", "bytes,4,n", "None"),
    (ALL_BREAKS, "lengths", "39 27 27 4"),
    ("\x85", "lengths", "2 1 1 1"),
]

# The answers to a range over `aé\r\n` as one of characters and as one of bytes; None isn't requested.
RANGE_TEXT = "aé\r\n"
RANGE_KINDS = ["a..b", "a..=b", "a..", "..b", "..=b", ".."]

RANGES = [
    # A range that starts above its end is refused first, also if it goes past the text's end too.
    ("a..b", 3, 2, "CharRangeInvalid(3, 2)", "ByteRangeInvalid(3, 2)"),
    ("a..b", 9, 8, "CharRangeInvalid(9, 8)", "ByteRangeInvalid(9, 8)"),
    ("a..b", GREATEST, 0, f"CharRangeInvalid({GREATEST}, 0)", f"ByteRangeInvalid({GREATEST}, 0)"),
    ("a..=b", 9, 4, "CharRangeInvalid(9, 5)", "ByteRangeInvalid(9, 5)"),
    # Then one that goes past it, also if a character is split.
    ("a..b", 2, 6, "CharRangeOutOfBounds(Some(2), Some(6), 4)", "ByteRangeOutOfBounds(Some(2), Some(6), 5)"),
    ("a..b", 0, GREATEST, f"CharRangeOutOfBounds(Some(0), Some({GREATEST}), 4)", f"ByteRangeOutOfBounds(Some(0), Some({GREATEST}), 5)"),
    (
        "a..b",
        GREATEST,
        GREATEST,
        f"CharRangeOutOfBounds(Some({GREATEST}), Some({GREATEST}), 4)",
        f"ByteRangeOutOfBounds(Some({GREATEST}), Some({GREATEST}), 5)",
    ),
    ("a..=b", 2, GREATEST, f"CharRangeOutOfBounds(Some(2), Some({GREATEST}), 4)", f"ByteRangeOutOfBounds(Some(2), Some({GREATEST}), 5)"),
    ("..=b", 0, 5, "CharRangeOutOfBounds(None, Some(6), 4)", "ByteRangeOutOfBounds(None, Some(6), 5)"),
    ("..b", 0, 5, "CharRangeOutOfBounds(None, Some(5), 4)", "61c3a90d0a/2"),
    ("..b", 0, 6, None, "ByteRangeOutOfBounds(None, Some(6), 5)"),
    ("a..", 5, 0, "CharRangeOutOfBounds(Some(5), None, 4)", "/1"),
    ("a..", 6, 0, None, "ByteRangeOutOfBounds(Some(6), None, 5)"),
    # Then one that splits a character.
    ("a..", 2, 0, "0d0a/2", "ByteRangeNotCharBoundary(Some(2), None)"),
    ("..b", 0, 2, "61c3a9/1", "ByteRangeNotCharBoundary(None, Some(2))"),
    ("..=b", 0, 1, "61c3a9/1", "ByteRangeNotCharBoundary(None, Some(2))"),
    ("a..=b", 2, 4, None, "ByteRangeNotCharBoundary(Some(2), Some(5))"),
    # And ranges that are accepted.
    ("a..=b", 2, 3, "0d0a/2", None),
    ("..", 0, 0, "61c3a90d0a/2", "61c3a90d0a/2"),
    ("a..", 4, 0, "/1", None),
    ("a..=b", 1, 2, "c3a90d/2", "c3a9/1"),
    ("a..=b", 3, 2, "/1", "/1"),
    ("..=b", 0, 2, "61c3a90d/2", "61c3a9/1"),
    ("a..b", 1, 5, "CharRangeOutOfBounds(Some(1), Some(5), 4)", "c3a90d0a/2"),
    ("a..b", 1, 3, "c3a90d/2", "c3a9/1"),
]


def known():
    """Values that are known from elsewhere, of ropes and of slices, in one leaf and in leaves as short as possible."""
    plain = {"places": with_plain_places, "chunk": with_plain_chunks}
    for text, ask, answer in VECTORS:
        name = ask.partition(",")[0]
        answer = plain[name](answer) if name in plain else answer
        yield f"from_str {hexed(text)} {ask}", f";{answer};"
        yield leaves_row([text] if text else [], [ask], [answer])
        if text and not ask.startswith("chunk"):
            yield leaves_row(shortest_leaves(text), [ask], [answer])


def known_ranges():
    """The answers to ranges that are known from elsewhere."""

    def wrong(kind, start, end, dues, line):
        answers = line[:-1].split("|")
        place = RANGE_KINDS.index(kind)
        for due, answer in zip(dues, (answers[place], answers[place + len(RANGE_KINDS)])):
            if due is not None and answer != due:
                yield f"{kind} with {start} and {end}: {answer!r}, not {due!r}"

    for kind, start, end, *dues in RANGES:
        asked = f"parts,{start},{end}"
        line, _ = leaves_row([RANGE_TEXT], [asked], [])
        yield line, functools.partial(wrong, kind, start, end, dues)
        yield RopeRow("from_str", [RANGE_TEXT], [asked]).row()


def cut_breaks():
    """Slices that end or start inside a sequence of CR LF."""
    for pieces in (["\r\n" * 15], ["\r\n"] * 15):
        for place in range(31):
            asks = ["lengths", "whole", f"slice,{place},30", "lengths", "whole", f"byte_slice,{place},30", "lengths"]
            front, back = 1 + (place + 1) // 2, 16 - place // 2
            rest = f"{30 - place} {30 - place} {30 - place} {back}"
            yield leaves_row(pieces, asks, [f"{place} {place} {place} {front}", rest, rest], [f"slice,0,{place}"])


def there_and_back(count, place):
    """A script that goes from a position to the end, back to the start and to that position again; and, reversed there,
    to the start, to the end and back. Each end is met twice."""
    return (
        "n" * (count - place + 1) + "p" * (count + 2) + "n" * place
        + "r" + "n" * (place + 1) + "p" * (count + 1) + "r" + "n" + "p" * (count + 2)
    )  # fmt: skip


def to_and_fro(count):
    """A script that turns at each item, forward and backward, by steps and by reversals, and continues with clones."""
    return "lnnpclrpr" * (count + 1) + "r" + "lnnprcr" * (count + 1)


def walks(kind, count, last, cut):
    """Walks from each position up to the last one, and from one past it."""
    for place in range(last + 2):
        script = there_and_back(count, min(place, count))
        yield f"{kind},{place},{script}", cut.walk(kind, place, script)
    script = to_and_fro(count)
    yield f"{kind},0,{script}", cut.walk(kind, 0, script)


def joined(both):
    asks, answers = zip(*both)
    return " ".join(asks), "".join(f"{answer};" for answer in answers)


@functools.lru_cache(maxsize=10_000)
def asks_of_text(text):
    """The requests for each slice with this text, however it is split, and the answers."""
    cut, told = Cut((text,) if text else ()), text_of(text)
    both = [("lengths", lengths(text)), ("text", hexed(text))]
    both += [(f"places,{idx}", told.places(idx)) for idx in range(told.bytes + 2)]
    for kind in ("bytes", "chars", "lines"):
        count = len(items_of(kind, text))
        both += walks(kind, count, count, cut)
    return joined(both)


@functools.lru_cache(maxsize=10_000)
def asks_of_chunks(pieces):
    """The requests for each slice with these chunks, and the answers."""
    cut = Cut(pieces)
    whole, text = cut.whole, hexed(cut.whole.text)
    both = [("as_str", cut.as_str()), ("to_text", text), ("display", text)]
    both += [(f"chunk,{idx}", cut.chunk(idx)) for idx in range(whole.bytes + 2)]
    for kind, last in zip(CHUNK_KINDS, (whole.bytes, whole.chars, whole.lines)):
        both += walks(kind, len(pieces), last, cut)
    return joined(both)


@functools.lru_cache(maxsize=2_000)
def asks_of_parts(text):
    """All parts of a slice, and the ranges that are refused, also past its end."""
    told = text_of(text)
    ends = itertools.product(range(told.bytes + 2), repeat=2)
    return joined((f"parts,{start},{end}", told.parts(start, end)) for start, end in ends)


def slices_row(pieces, ranges, *kinds):
    """A row on slices of a tree of these leaves."""
    asks, answers = [], []
    whole = Cut(pieces)
    for start, end in ranges:
        part = whole.slice(start, end).pieces
        asks.append(f"slice,{start},{end}")
        for kind in kinds:
            ask, answer = kind(part if kind is asks_of_chunks else "".join(part))
            asks.append(ask)
            answers.append(answer)
        asks.append("whole")
    return " ".join(["tree", "|".join(map(hexed, pieces)), *asks]), "".join(answers)


def small_slices():
    """Every slice of short texts that are split in every way: the answers at each index, and every walk."""
    for length, letters in ((0, LETTERS), (1, LETTERS), (2, LETTERS), (3, LETTERS), (4, LETTERS[:4])):
        for text in small_texts(letters, length):
            for pieces in cuttings(text):
                yield slices_row(pieces, pairs(length), asks_of_text, asks_of_chunks)


def longer_slices():
    """Every slice of texts of five characters in one leaf, and the whole of them in leaves as short as possible; and a
    text with each line break."""
    for pieces in ((ALL_BREAKS,), shortest_leaves(ALL_BREAKS)):
        yield slices_row(pieces, [(0, len(ALL_BREAKS)), (3, 20)], asks_of_text, asks_of_chunks)
    for text in small_texts(LETTERS[:4], 5):
        yield slices_row((text,), pairs(5), asks_of_text)
        yield slices_row(shortest_leaves(text), [(0, 5)], asks_of_text, asks_of_chunks)


def slices_of_slices():
    """Every part of every slice, and every range that is refused."""
    for length in range(4):
        for text in small_texts(LETTERS, length):
            for pieces in cuttings(text):
                yield slices_row(pieces, pairs(length), asks_of_parts)
    for text in small_texts(LETTERS[:4], 4):
        for pieces in cuttings(text):
            yield slices_row(pieces, [(0, 4)], asks_of_parts)


def narrowings(chance, cut):
    """Random slices of slices, of a text in leaves: how each is reached, and its text."""
    length = len(cut.whole.text)
    for _ in range(10):
        start = chance.randint(0, length)
        outer = cut.slice(start, end := chance.randint(start, length))
        yield [f"slice,{start},{end}"], outer
        for _ in range(20):
            low = chance.randint(0, end - start)
            high = min(low + chance.choice((10, 100, 2_000)), end - start)
            yield [f"slice,{start},{end}", f"slice,{low},{high}"], outer.slice(low, high)


def asks_at_random(chance, cut):
    """Some of the requests for a slice, at random offsets, and the answers."""
    whole, both = cut.whole, [("lengths", lengths(cut.whole.text))]
    for _ in range(3):
        idx = chance.randint(0, whole.bytes + 1)
        both += [(f"places,{idx}", whole.places(idx)), (f"chunk,{idx}", cut.chunk(idx))]
        for kind in ("bytes", "chars", "lines", *CHUNK_KINDS):
            script = "".join(chance.choices("nnnpppnprcl", k=chance.randint(5, 60)))
            place = chance.randint(0, whole.lines if kind in ("lines", CHUNK_KINDS[2]) else whole.chars)
            both.append((f"{kind},{place},{script}", cut.walk(kind, place, script)))
    return joined(both)


def long_texts():
    """Slices of slices of texts in many leaves: trees of up to four levels over leaves of a few bytes, and of longer
    leaves, at random offsets."""
    chance = random.Random(5)
    for length, most in ((300, 1), (3_000, 8), (12_000, 1), (12_000, 8), (100_000, 600), (400_000, MOST_BYTES)):
        pieces = cut_at_random(chance, text_at_random(chance, length), most)
        whole, asks, answers = Cut(pieces), [], []
        both = [asks_at_random(chance, whole)] if length < 20_000 else []
        for ask, answer in both:
            asks, answers = asks + [ask], answers + [answer]
        for steps, part in narrowings(chance, whole):
            is_long = len(part.whole.text) > 20_000
            ask, answer = ("lengths", lengths(part.whole.text) + ";") if is_long else asks_at_random(chance, part)
            asks += [*steps, ask, "whole"]
            answers.append(answer)
        yield " ".join(["tree", "|".join(map(hexed, pieces)), *asks]), "".join(answers)


def pair_row(left, right):
    """A row that compares two texts in leaves. Hashers get equally many writes of equally many bytes if the texts have
    equally many."""
    texts = ["".join(pieces) for pieces in (left, right)]
    is_equal = "true" if texts[0] == texts[1] else "false"
    is_as_long = "true" if len(texts[0].encode()) == len(texts[1].encode()) else "false"
    answer = " ".join([order(*texts), is_equal, is_equal, is_equal, is_as_long])
    return f"pair {'|'.join(map(hexed, left))} {'|'.join(map(hexed, right))}", f"{answer};"


def pairs_of_texts():
    """Short texts in pairs, split in every way, and long ones that differ in the last character, or in their length."""
    cuts = [pieces for length in range(3) for text in small_texts(LETTERS, length) for pieces in cuttings(text)]
    for left, right in itertools.product(cuts, repeat=2):
        yield pair_row(left, right)
    chance = random.Random(3)
    # Hashers get blocks of 256 bytes.
    for middle in (0, 126, 127, 128, 254, 255, 256, 382, 490, 2_500):
        texts = ["é" * middle + end for end in ("éé", "éê", "é", "")]
        for left, right in itertools.product(texts, repeat=2):
            for most in (8, 300, MOST_BYTES):
                yield pair_row(cut_at_random(chance, left), cut_at_random(chance, right, most))


def test_all():
    check("values that are known from outside", itertools.chain(known(), known_ranges(), cut_breaks()))
    check("short texts cut in every way: every slice, at each index, and every walk", small_slices())
    check("texts of five characters: every slice and every walk", longer_slices())
    check("short texts cut in every way: every part of slices, and the ranges that are refused", slices_of_slices())
    check("slices of slices of long texts", long_texts())
    check("pairs of texts that are compared, each cut in its way", pairs_of_texts())
