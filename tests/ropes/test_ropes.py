"""Ropes, on bin/rope-driver, which reads rows, one a line: ropes that are built, read and edited.

The expected answers come from the model of tests/models/rope_model.py; values that are known from elsewhere are listed here.
ROPE_DRIVER names another program than bin/rope-driver.
"""
import itertools
import random

from rope_model import CHUNK_KINDS, hexed
from rope_rows import RopeRow, check
from rope_texts import UNITS, full, pairs, small_texts

LENGTHS = (0, 1, 983, 984, 985, 1968, 50_000)

# Texts, and the requests for a rope of each, in order, with the answers: a call with its arguments, and a text
# unchanged.
EDITS = [
    ("ab\r\ncd", [("lengths", "6 6 6 2"), (("try_insert", 3, "x"), "Ok(())"), ("text", "ab\rx\ncd"),
     ("lengths", "7 7 7 3"), ("try_remove,3,4", "Ok(())"), ("text", "ab\r\ncd"), ("lengths", "6 6 6 2")]),
    ("a\r\nb", [("try_split_off,2", "Ok(())"), ("text", "a\r"), ("lengths", "2 2 2 2"), ("swap", "Ok(())"),
     ("text", "\nb"), ("lengths", "2 2 2 2"), ("swap", "Ok(())"), ("append", "Ok(())"), ("text", "a\r\nb"),
     ("lengths", "4 4 4 2"), ("cut", "4 984")]),
    ("aé🐸", [(("try_insert", 4, "x"), "Err(CharIndexOutOfBounds(4, 3))"),
     (("try_insert_char", 4, "x"), "Err(CharIndexOutOfBounds(4, 3))"),
     ("try_split_off,4", "Err(CharIndexOutOfBounds(4, 3))"), ("try_remove,3,2", "Err(CharRangeInvalid(3, 2))"),
     ("try_remove,9,8", "Err(CharRangeInvalid(9, 8))"),
     ("try_remove,2,5", "Err(CharRangeOutOfBounds(Some(2), Some(5), 3))"),
     ("try_remove,4,", "Err(CharRangeOutOfBounds(Some(4), None, 3))"), ("text", "aé🐸")]),
    ("", [("try_remove,,", "Ok(())"), (("try_insert", 0, ""), "Ok(())"), ("try_split_off,0", "Ok(())"),
     ("append", "Ok(())"), ("lengths", "0 0 0 1"), (("try_insert_char", 0, "🐸"), "Ok(())"),
     (("try_insert", 1, "é"), "Ok(())"), (("try_insert", 0, "a"), "Ok(())"), ("text", "a🐸é"),
     ("try_split_off,3", "Ok(())"), ("swap", "Ok(())"), ("lengths", "0 0 0 1"), ("swap", "Ok(())"),
     ("try_split_off,0", "Ok(())"), ("lengths", "0 0 0 1"), ("append", "Ok(())"), ("text", "a🐸é"),
     ("try_remove,,", "Ok(())"), ("lengths", "0 0 0 1"), ("cut", "0")]),
    # The plain methods, in the middle and at both ends.
    ("aé🐸", [(("insert", 0, "b"), "Ok(())"), (("insert", 4, "\r\n"), "Ok(())"), (("insert", 2, "せ"), "Ok(())"),
     ("text", "baせé🐸\r\n"), (("insert_char", 0, "c"), "Ok(())"), (("insert_char", 8, "d"), "Ok(())"),
     (("insert_char", 4, "e"), "Ok(())"), ("text", "cbaせeé🐸\r\nd"), ("lengths", "16 10 11 2"),
     ("remove,1,3", "Ok(())"), ("text", "cせeé🐸\r\nd"), ("remove,0,0", "Ok(())"), ("split_off,8", "Ok(())"),
     ("split_off,3", "Ok(())"), ("text", "cせe"), ("append", "Ok(())"), ("split_off,0", "Ok(())"),
     ("lengths", "0 0 0 1"), ("append", "Ok(())"), ("text", "cせeé🐸\r\nd"), ("same", "true Equal true true")]),
    # A text replacing a range of characters or of bytes; and a range is refused before anything is done.
    ("aé\r\n🐸", [(("replace", 1, 3, "xy"), "Ok(())"), ("text", "axy\n🐸"), ("lengths", "8 5 6 2"),
     (("try_replace", 1, 9, "a"), "Err(CharRangeOutOfBounds(Some(1), Some(9), 5))"),
     (("try_replace", 3, 2, "a"), "Err(CharRangeInvalid(3, 2))"),
     (("try_replace", 6, None, "a"), "Err(CharRangeOutOfBounds(Some(6), None, 5))"),
     (("try_byte_replace", 2, 5, "b"), "Err(ByteRangeNotCharBoundary(Some(2), Some(5)))"),
     (("try_byte_replace", 9, 9, "b"), "Err(ByteRangeOutOfBounds(Some(9), Some(9), 8))"),
     (("try_byte_replace", 4, 3, "b"), "Err(ByteRangeInvalid(4, 3))"),
     (("try_byte_replace", 5, 8, "b"), "Err(ByteRangeNotCharBoundary(Some(5), Some(8)))"), ("text", "axy\n🐸"),
     (("byte_replace", 1, 3, "\r"), "Ok(())"), ("text", "a\r\n🐸"), ("lengths", "7 4 5 2"),
     (("try_byte_replace", 3, None, "é"), "Ok(())"), ("text", "a\r\né"), (("try_replace", None, 1, ""), "Ok(())"),
     ("text", "\r\né"), (("try_replace", None, None, "🐸\n"), "Ok(())"), ("text", "🐸\n"),
     (("try_byte_replace", 1, 4, ""), "Err(ByteRangeNotCharBoundary(Some(1), Some(4)))"),
     (("try_byte_replace", None, 4, ""), "Ok(())"), ("lengths", "1 1 1 2")]),
    # Of the characters that Unicode lets break lines only LF and CR do, CR LF as one.
    ("a\nb\vc\fd\re\x85f\u2028g\u2029h\r\ni", [("lengths", "23 18 18 4"), ("same", "true Equal true true"),
     ("remove,1,2", "Ok(())"), ("remove,6,7", "Ok(())"), ("lengths", "21 16 16 2"),
     ("same", "true Equal true true")]),
    ("abc", [("try_remove,3,2", "Err(CharRangeInvalid(3, 2))"),
     ("try_remove,2,5", "Err(CharRangeOutOfBounds(Some(2), Some(5), 3))"), ("text", "abc")]),
    # The slices that a builder gets: the text up to one character, and that from another one on.
    ("aé\r\n🐸", [("build,3,3", "Ok(9)"), ("text", "aé\r\n🐸"), ("build,2,3", "Ok(8)"), ("text", "aé\n🐸"),
     ("cut", "8 984"), ("build,4,0", "Ok(16)"), ("text", "aé\n🐸aé\n🐸"), ("same", "true Equal true true"),
     ("build,0,8", "Ok(0)"), ("lengths", "0 0 0 1")]),
]  # fmt: skip


def known_edits():
    """Edits whose result is known from elsewhere, and the model's result."""
    for text, steps in EDITS:
        row = RopeRow("from_str", [text], [ask for ask, _ in steps])
        yield row.line(), ";" + "".join(f"{hexed(answer) if ask == 'text' else answer};" for ask, answer in steps)
        yield row.row()


def built_texts():
    """Short texts that are built from parts, split in every way, also in a CR LF; and empty parts."""
    for length in range(6):
        for text in small_texts("\r\na", length):
            for cuts in range(2**length):
                ends = [place for place in range(length) if cuts >> place & 1] + [length]
                parts = [text[start:end] for start, end in zip([0, *ends], ends)]
                asks = ["cut", "lengths", "same", *(f"places,{idx}" for idx in range(length + 2)), "chunk,0"]
                yield RopeRow(("from_chunks", "builder", "from_chunks", "slices")[cuts % 4], parts, asks).row()
    for maker, parts in itertools.product(("builder", "from_chunks"), (["", "", ""], ["", "a\r", "", "\nb", ""])):
        yield RopeRow(maker, parts, ["cut", "text", "lengths", "chunk,2"]).row()
    yield "from_chunks  cut lengths", ";0;0 0 0 1;"
    # A leaf with room for only a CR ends before it, and one with room for two bytes takes both.
    for letters, sizes in ((981, "983"), (982, "984"), (983, "983 2"), (984, "984 2")):
        yield f"builder 61*{letters}+0d||0a cut", f";{sizes} {984 * len(sizes.split())};"


def longest_text():
    """A text of 984 bytes that is doubled, sharing its nodes, until it would have 2^63 bytes or more."""
    size = 984 * 2**53
    told = f"{size} {size} {size} 1;"
    line = f"from_str 61*984 {'clone append ' * 53}lengths clone append lengths"
    yield line, ";" + "Ok(());" * 106 + told + "Ok(());Err(Size);" + told


def parts_of(text, size):
    """A text in parts of this number of bytes, without splitting characters."""
    parts, data = [], text.encode()
    while data:
        end = size
        while end < len(data) and 0x80 <= data[end] < 0xC0:
            end += 1
        parts.append(data[:end].decode())
        data = data[end:]
    return parts


def made_ropes():
    """Long texts that are built into ropes, in all ways: the chunks, the lengths, and the results at some offsets."""
    for unit, size in itertools.product(UNITS, LENGTHS):
        text = full(unit, size)
        every = 1 if size < 1_000 else 997
        asks = ["cut", "lengths", "text", *(f"places,{idx}" for idx in range(0, size + 2, every))]
        asks += [f"chunk,{idx}" for idx in range(0, size + 2, max(every, 41))] + ["written", "display", "same"]
        for maker in ("from_str", "from_reader"):
            yield RopeRow(maker, [text], asks).row()
        for part_size in (1, 7, 983, 984, 985):
            for maker in ("builder", "from_chunks"):
                yield RopeRow(maker, parts_of(text, part_size), ["cut", "lengths", "same"]).row()
    text = full("é🐸\r\nせ", 3_000)
    for start, end in ((0, 0), (0, 1_368), (1, 2), (440, 460), (700, len(text))):
        yield RopeRow("from_str", [text], [f"slice,{start},{end}", "cut", "text", "same"]).row()
    for size in (0, 1, 984, 985, 20_000):
        asks = ["clone", "shrink_to_fit", "cut", "text", "same", "swap", "text", "same"]
        yield RopeRow("from_str", [full("é\r\n", size)], asks).row()
    text = full("é🐸\r\n", 50_000)
    asks = [f"lines,0,{'n' * 6_252}{'p' * 6_252}", *(f"places,{idx}" for idx in range(0, 50_002, 7))]
    yield RopeRow("from_str", [text], ["cut", *asks]).row()
    # All chunks in order, and backward.
    asks = [f"{kind},0,{'n' * 18}{'p' * 18}" for kind in CHUNK_KINDS]
    yield RopeRow("from_str", ["abc" * 5_000], ["cut", *asks]).row()
    for unit in UNITS:
        # Ten million bytes: the answers are too long to ask the model at each offset.
        text, count = unit * (10_000_000 // len(unit.encode())), 10_000_000 // len(unit.encode())
        yield f"from_str {hexed(unit)}*{count} cut lengths", RopeRow("from_str", [text], ["cut", "lengths"]).wrong


def compared_ropes():
    """Ropes of one text that are split in different ways, and ropes of texts that differ in a character or of which one
    is a prefix, compared and hashed as wholes."""
    others = [(text, other) for text in small_texts("a\né", 2) for other in small_texts("a\né", 2)]
    for text, other in [*others, ("", "a"), ("a", ""), ("\U0001f438", "\uffff"), ("a\r", "a\r\n")]:
        asks = ["split_off,0", ("insert", 0, other), "compare", "swap", "compare"]
        yield RopeRow("from_str", [text], asks).row()
    for unit, size in itertools.product(UNITS, (983, 985, 2_000, 50_000)):
        text, inserted = full(unit, size), full("\r\na", 1_500)
        for at in (0, 1, len(text) // 2, len(text)):
            cut_anew = [("insert", at, inserted), "cut", f"remove,{at},{at + len(inserted)}", "cut"]
            one_more = [("insert", at, "a"), "compare", "swap", "compare"]
            asks = ["clone", *cut_anew, "compare", "swap", "compare", *one_more]
            yield RopeRow("from_str", [text], asks).row()
            yield RopeRow("builder", parts_of(text, 41), [*asks, "shrink_to_fit", "cut", "compare"]).row()
        # Without its first 100 bytes the first chunk stays shorter than a new one.
        asks = ["remove,0,100", "cut", "clone", "shrink_to_fit", "cut", "compare", "swap", "compare", *one_more]
        yield RopeRow("from_str", ["b" * 100 + text], asks, differ=(0, 1)).row()


def small_edits():
    """Each insertion into a short text and its removal, each removal and each replacement, and each split that is
    appended again. A clone of the text is unchanged."""
    others = [other for length in range(3) for other in small_texts("\r\na", length)]
    for length in range(5):
        for text in small_texts("\r\na", length):
            asks = []
            for at, other in itertools.product(range(length + 1), others):
                insert = ("try_insert", at, other)
                asks += ["clone", insert, "text", "lengths", f"try_remove,{at},{at + len(other)}", "text", "lengths", "swap"]
            for start, end in pairs(length):
                asks += ["clone", f"remove,{start},{end}", "text", "lengths", "same", "swap"]
                asks += ["clone", f"build,{start},{end}", "cut", "text", "swap"]
                for other, name in itertools.product(others, ("replace", "byte_replace")):
                    asks += ["clone", (name, start, end, other), "text", "lengths", "swap"]
            for at in range(length + 1):
                asks += ["clone", f"split_off,{at}", "text", "append", "text", "lengths", "swap"]
            yield RopeRow("from_str", [text], [*asks, "text", "lengths"]).row()


def seams():
    """Edits of a text with many chunks near the offset where its first chunk ends."""
    for small, letters in itertools.product(small_texts("\r\na", 2), range(981, 985)):
        asks = []
        for other, at in itertools.product(("\r", "\n", "\r\n", "\n\r", "x"), range(980, 987)):
            asks += ["clone", ("try_insert", at, other), "cut", "text", "same", "swap"]
            asks += ["clone", f"try_remove,982,{max(at, 982)}", "cut", "text", f"try_split_off,{at}", "append", "cut", "text", "swap"]
            asks += ["clone", ("try_replace", 982, max(at, 982), other), "cut", "text", "same", "swap"]
        yield RopeRow("from_str", ["b" * letters + small + "b" * 1_000], [*asks, "text"]).row()


def edits_of_many_chunks():
    """Long texts that are inserted and removed, and halves that are swapped."""
    text, other = full("ab\r\n", 20_000), full("\nc\r", 5_000)
    asks = []
    for at in (0, 1, 3, 983, 984, 10_003, 19_999, 20_000):
        asks += ["clone", ("try_insert", at, other), "cut", "text", "same", f"try_remove,{at},{at + 5_000}", "cut", "text"]
        asks += [f"try_split_off,{at}", "swap", "append", "cut", "text", "swap"]
        for end, size in itertools.product((at, at + 3, at + 1_200), (0, 3, 1_200, 5_000)):
            asks += ["clone", ("try_byte_replace", at, min(end, 20_000), other[:size]), "cut", "text", "same", "swap"]
        asks += ["clone", f"build,{at},{at}", "cut", "text", "same", "swap"]
    yield RopeRow("from_str", [text], [*asks, "text"]).row()


def merging_leaves():
    """Texts of a few bytes that are appended in order go into full chunks."""
    for unit, count in (("a", 2_000), ("\r\n", 1_000), ("🐸é\r", 500)):
        yield RopeRow("from_str", [unit], ["clone"] * (count - 1) + ["append"] * (count - 1) + ["cut", "text", "same"]).row()


def looks(chance, size):
    """Look-ups at a random offset."""
    idx = chance.randint(0, size + 1)
    kind = chance.choice(("bytes", "chars", "lines", *CHUNK_KINDS))
    return ["cut", "lengths", f"places,{idx}", f"chunk,{idx}", f"{kind},{chance.randint(0, size)},nnnppppprnncpl", "same"]


def random_edits(seed, count, most, units, every, sizes):
    """Random edits: four of nine insert, two remove, two replace, and one splits and appends. At intervals the rope is
    compared with its text, read, and a clone is kept, which is compared at the end."""
    chance = random.Random(seed)
    text, asks, kept = "", [], 0
    for turn in range(count):
        size = len(text)
        at, kind = chance.randint(0, size), chance.randint(0, 8)
        other = chance.choice(units) * chance.choice(sizes)(chance)
        end = min(at + len(other), size)
        if kind < 4 and size < most:
            asks.append((chance.choice(("insert", "try_insert")), at, other))
            text = text[:at] + other + text[at:]
        elif kind < 6:
            asks.append(f"{chance.choice(('remove', 'try_remove'))},{at},{end}")
            text = text[:at] + text[end:]
        elif kind < 8:
            start, other = at, other if kind == 6 else chance.choice(units) * chance.choice(sizes)(chance)
            name, asked = chance.choice(("replace", "try_replace", "byte_replace", "try_byte_replace")), (start, end)
            if "byte" in name:
                asked = [len(text[:place].encode()) for place in asked]
            asks.append((name, *asked, other))
            text = text[:start] + other + text[end:]
        else:
            asks += [f"{chance.choice(('split_off', 'try_split_off'))},{at}", "append"]
        size = len(text)
        if turn % every == 0:
            asks += looks(chance, size) + ["text"]
        if turn % (10 * every) == 0:
            asks.append("clone")
            kept += 1
    asks += [*looks(chance, size), "shrink_to_fit", *looks(chance, size), "text"]
    return RopeRow("from_str", [""], asks + ["swap", "text"] + ["append", "text"] * kept)


def edits_at_random():
    few, many = (lambda chance: chance.randint(0, 8)), (lambda chance: chance.randint(0, 4_000))
    units = ("a", "b", "\r", "\n", "\r\n", "é", "🐸", "words \v\f\x85\u2028\u2029")
    yield random_edits(7, 60_000, 15_000, units, 600, [few] * 99 + [many]).row()
    yield random_edits(1, 600, 60_000, ("a", "\r", "\n", "b\r\nc"), 10, [few] * 7 + [lambda chance: chance.randint(0, 3_000)]).row()
    yield random_edits(2, 4_000, 80_000, ("\nc\r", "aé\r\nb"), 100, [lambda chance: chance.randint(0, 300)]).row()
    # Removing text leaves no short chunk except at the end.
    text = full("aé\r\nb", 60_000)
    for left in (1, 2, 100, 400, 500):
        asks, at, size = [], left, len(text)
        for _ in range(100):
            end = min(at + 700, size)
            asks += [f"try_remove,{min(at, end)},{end}", "cut"]
            size -= end - min(at, end)
            at += left
        yield RopeRow("from_str", [text], [*asks, "text", "same"]).row()


def test_all():
    check("edits of ropes whose outcome is known", known_edits())
    check("texts that are built of parts", built_texts())
    check("text that is as long as may be", longest_text())
    check("long texts that are made ropes", made_ropes())
    check("ropes that are compared and hashed", compared_ropes())
    check("edits of short texts", small_edits())
    check("edits where chunks meet", itertools.chain(seams(), edits_of_many_chunks(), merging_leaves()))
    check("ropes that are edited at random", edits_at_random())
