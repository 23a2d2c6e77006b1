"""Texts escaped for patterns by the library: the pattern, its tree, and that its matches are the text's occurrences."""
import ctypes
import itertools
import random

from library import rope_search
from pattern_model import ordinal, tree_of
from walks import Concat, Empty, Set

META = "\\.+*?()|[{^$"
ASCII = [chr(code) for code in range(128)]
OTHERS = ["é", "ß", "ﬀ", "\u0301", "\u2028", "\ufeff", "\ufffd", "\ue000", "\ud7ff", "🐸", "\U0010ffff"]
LIMIT = 65_536
# What a text at random has.
ALPHABET = [*META, *META, *"aAkKb }]-&~#<>,1\n\r\t", "é", "\u212a", "🐸"]
# Each text with its pattern, or why there is none.
ROWS = [
    ("", ""),
    ("a.b", r"a\.b"),
    ("{a: 1}", r"\{a: 1}"),
    ("f(x)^2 = [y]|$z", r"f\(x\)\^2 = \[y]\|\$z"),
    ("\\d+\\b*?", r"\\d\+\\b\*\?"),
    ("(?i)A", r"\(\?i\)A"),
    ("<a href=\"#\"> & ~-", "<a href=\"#\"> & ~-"),
    ("é🐸\u0301\r\n\0", "é🐸\u0301\r\n\0"),
    ("a" * LIMIT, "a" * LIMIT),
    ("." * (LIMIT // 2), r"\." * (LIMIT // 2)),
    ("🐸" * (LIMIT // 4 - 1) + "é(", "🐸" * (LIMIT // 4 - 1) + r"é\("),
    ("a" * (LIMIT + 1), rope_search.Limit),
    ("." * (LIMIT // 2) + "a", rope_search.Limit),
    ("a" * (LIMIT - 1) + "^", rope_search.Limit),
    ("🐸" * (LIMIT // 4) + "é", rope_search.Limit),
    ("a" * 10_000_000, rope_search.Limit),
    (b"\xff", rope_search.Utf8),
    (b"(" * (LIMIT + 1) + b"\xc3", rope_search.Utf8),
    ("\ud800", rope_search.Utf8),
]


def escaped(text):
    """The text with a backslash before each meta character."""
    return "".join("\\" + character if character in META else character for character in text)


def is_tree_of(tree, text):
    """Whether a tree is the concatenation of a text's characters."""
    if not isinstance(tree, Concat):
        return tree == Empty() if not text else isinstance(tree, Set) and [*tree.has.ranges] == [(ordinal(ord(text)),) * 2]
    return len(tree.parts) == len(text) > 1 and all(map(is_tree_of, tree.parts, text))


def escape(text):
    """The pattern, or why there is none."""
    try:
        return rope_search.escape(text)
    except rope_search.Fault as fault:
        return type(fault)


def wrong_rows():
    """What is wrong with texts whose patterns are written out, and with all short texts in ASCII."""
    short = [*ASCII, *OTHERS, *map("".join, itertools.product(ASCII, repeat=2))]
    for text, due in [*ROWS, *((text, escaped(text)) for text in short)]:
        if (told := escape(text)) != due:
            yield f"{text[:20]!r} is escaped as {told if isinstance(told, type) else told[:40]!r}"


def wrong_found(text, around):
    """What is wrong with the matches of an escaped text in another text: they are its occurrences."""
    with rope_search.Session() as session:
        session.set_text(around)
        session.set_pattern(rope_search.escape(text))
        count = session.replace("<$0$$>")
        if (count, session.text) != (around.count(text), around.replace(text, f"<{text}$>")):
            yield f"{text[:20]!r} is found {count} times in {around[:60]!r}"


def wrong_matches(seed):
    """What is wrong with texts at random: their trees, and their matches in texts that have them and much like them."""
    chosen = random.Random(f"escapes {seed}")
    text = "".join(chosen.choice(ALPHABET) for _ in range(chosen.choice((0, 1, 1, 2, 2, 3, 5, 9))))
    others = [text, text, text[1:], text[:-1], text.swapcase(), escaped(text), chosen.choice(ALPHABET)]
    around = "".join(chosen.choice(others) for _ in range(chosen.randint(0, 12)))
    wrong = list(wrong_found(text, around))
    if not is_tree_of(tree_of(rope_search.escape(text)), text):
        wrong.append(f"{text!r} has another tree")
    return wrong


def wrong_singles():
    """What is wrong with the matches of single characters, and of each two meta characters."""
    every = "".join(ASCII + OTHERS) * 2
    for text in [*ASCII, *OTHERS]:
        yield from wrong_found(text, every)
    for pair in itertools.product(META, repeat=2):
        text = "".join(pair)
        yield from wrong_found(text, f"a{text}{text[0]}b{text[1]}{text}{text[0]}a")
    # A long pattern is slow where it may match, so it is only searched where it can't.
    for text in ("a" * LIMIT, "^" * (LIMIT // 2)):
        yield from wrong_found(text, "é b\n" * 3)


def wrong_rooms():
    """What is left in a caller's array that has room for the pattern or not."""
    call = rope_search.library().rope_search_escape
    for text, room in itertools.product(("", "a", "a.b", "é(🐸"), range(12)):
        text, pattern = text.encode(), escaped(text).encode()
        out, size = ctypes.create_string_buffer(b"\xa5" * 16, 16), ctypes.c_size_t(7)
        status = call(text, len(text), out, room, size)
        due = pattern if len(pattern) <= room else b""
        if (status, size.value, out.raw) != (0, len(pattern), due + b"\xa5" * (16 - len(due))):
            yield f"{text} leaves {out.raw} in {room} bytes, and tells {size.value}"
    for text, due in ((b"\xff", 3), (b"." * LIMIT, 5)):
        out, size = ctypes.create_string_buffer(b"\xa5" * 4, 4), ctypes.c_size_t(7)
        if (call(text, len(text), out, 4, size), size.value, out.raw) != (due, 7, b"\xa5" * 4):
            yield f"{text[:4]} is refused, and leaves {out.raw}, {size.value}"
