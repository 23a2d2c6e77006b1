"""Where and why patterns are refused, on bin/search-driver: the rows of docs/patterns.md and more of them, and the
offsets given by the model of tests/models/pattern_model.py, for all short texts over some alphabets and for random texts:
parsing stops at the first character with which none of the endings that are tried completes the text to a pattern.
"""
import random
import re

import pattern_model
from driver import WANT, Settings, about, answers, check_memory, problems
from harness import example_rows, short, test
from memory import library
from random_patterns import Maker
from test_pattern_model import mangled
from test_patterns import REFUSED, TREES, TREES_UNDER, examples, tried

PATTERN = "a pattern"
RANDOM_TEXTS = 2_000

# What completes an escape, a class, the head of a group.
ESCAPE_ENDS = [".", "~", "u{10FFFF}", "7FF"] + [digit * count for digit in "0F" for count in range(1, 5)]
ESCAPE_ENDS += [digit * count + "}" for digit in "0F" for count in range(6)]
CLASS_ENDS = ["]", "a]"]
HEAD_ENDS = [":)", "<other>)", "other>)", ">)", ")"] + [flag + ")" for flag in "imsU"]

# Prefixes, and the characters of which all sequences of this length are appended to them.
ALPHABETS = [
    ("", "a()[]{}|*+?\\-^,1:<P>i.", 3),
    ("", "a()[]{*?\\-1<P", 4),
    ("(?", "P<>_a1-:)(", 4),
    ("(?", "imsU-:)x", 5),
    ("(?<a>b|(?", "P<>ab:)", 5),
    ("[", "[]^-ab&~\\", 4),
    ("[b-", "]-ac\\x06F}{", 4),
    ("[^\\", "dwA-]a\\x4", 4),
    ("a{", "0256,}?", 5),
    ("a{6553", "0567,}*", 4),
    ("a{600,", "0169}?", 4),
    ("\\u", "D78F{}0g", 5),
    ("\\x{0000", "D8F10}", 5),
    ("\\u{11", "0F}8", 7),
    ("[\\u{D7FF}-\\u", "{}D8F", 5),
]
NESTED = "a(*?:<b>i)"  # the parts of texts that are nested too deeply
NEST_LIMITS = (0, 1, 2)

# Settings, the offset and the reason for texts that are long, deep, or parsed with settings.
EXPLAINED = [
    ("a" * 65_537, Settings(), "65536 TooLong"),
    ("é" * 32_769, Settings(), "65536 TooLong"),
    ("a" + "é" * 32_768, Settings(), "65535 TooLong"),
    ("(" * 65_537, Settings(), "65536 TooLong"),
    ("(" * 251 + "a" + ")" * 251, Settings(), "251 Nesting"),
    ("(" * 250 + "a*" + ")" * 250, Settings(), "251 Nesting"),
    ("(?:" * 251 + ")" * 251, Settings(), "752 Nesting"),
    ("a" + "*" * 251, Settings(), "251 Nesting"),
    ("é(a*)", Settings(nest_limit=1), "4 Nesting"),
    ("(" * 251 + "*" + ")" * 251, Settings(), "251 NothingToRepeat"),
    ("(" * 251, Settings(), "251 OpenGroup"),
    ("a.", Settings(no_dot=0x80), "1 Dot"),
    ("(?s:.).", Settings(no_dot=0x80), "6 Dot"),
    ("(?-s:.)", Settings("s", no_dot=0x80), "5 Dot"),
    ("(?s)(.)|.", Settings(no_dot=0x80), PATTERN),
    ("((?s).)|.", Settings(no_dot=0x80), "8 Dot"),
    ("a*" * 32_768, Settings(), PATTERN),
    ("é*" * 21_000 + "\\q", Settings(), "63001 Escape"),
]

# More rows like those of the page: patterns with their offsets, by their reasons.
MORE_EXPLAINED = {
    "a group isn't closed": [("(a|(b)", 6), ("é(", 3)],
    "a parenthesis closes no group": [("(a))+", 3)],
    "there is nothing to repeat": [("{a: 1}", 0), ("a|*", 2), ("(?i)*", 4)],
    "a count isn't finished, or isn't one": [("a{", 2), ("a{2,", 4), ("a{2 }", 3)],
    "a count is above 65,535": [("a{655350}", 7)],
    "the greatest number of a count is below the least one": [("a{60000,6}", 9), ("a{60000,7}", 8)],
    "an escape isn't finished, or isn't one": [("a\\p{L}", 2), ("\\x4", 3), ("\\x{}", 3), ("[a\\1]", 3)],
    "the number of an escape is no character's": [("\\uD800", 3), ("\\x{110000}", 8)],
    "a class isn't closed": [("[a-", 3), ("[]", 2)],
    "a class has no such item": [("[a-\\d]", 4), ("[a&&b]", 3), ("[a-z-9]", 5), ("[\\b]", 2)],
    "a range of characters runs backwards": [("[b-\\x41]", 5)],
    "the head of a group isn't finished, or isn't one": [("(?", 2), ("(?<=a)", 3), ("(?<1a>b)", 3), ("(?ii)", 3), ("(?i-)", 4)],
}

# Each has its requests for memory refused in turn.
IN_NEED = [
    ("((a|b", Settings()),
    ("(?<a>(?P<b>c)(?<a>d))", Settings()),
    ("((((a))))", Settings(nest_limit=3)),
    ("[a-\\d]", Settings()),
]


def is_pattern(text):
    try:
        pattern_model.Reader(text).whole()
    except pattern_model.Outside:
        return False
    return True


def count_ends(front):
    """The completions of a count in braces, if the text ends in one: each greatest number that begins like this is
    tried."""
    begun = re.search(r"\{([0-9]+),([0-9]+)$", front)
    if begun is None:
        return ["}", "0}"]
    least, digits = int(begun[1]), begun[2].lstrip("0")
    numbers = (str(number) for number in range(least, pattern_model.MOST_TIMES + 1))
    found = next((number for number in numbers if number.startswith(digits)), digits)
    return ["}", found[len(digits) :] + "}"]


def endings(front):
    """Texts one of which completes a prefix of a pattern."""
    ends = [""]
    if "\\" in front:
        ends += ESCAPE_ENDS
    if "[" in front:
        ends += [end + closed for end in ends for closed in CLASS_ENDS]
    if "{" in front:
        ends += count_ends(front)
    if "(?" in front:
        ends += HEAD_ENDS
    if front.endswith("("):
        ends.append("?i)")
    return [end + ")" * count for count in range(front.count("(") + 1) for end in ends]


def is_front(text):
    return any(is_pattern(text + ending) for ending in endings(text))


def texts_over(front, alphabet, length):
    """All texts of at most this number of characters after a prefix, except extensions of those that, without their
    last character, are the prefix of no pattern: each with the expected answer, without the reason."""
    fronts = [front]
    for _ in range(length):
        texts = [begun + character for begun in fronts for character in alphabet]
        fronts = []
        for text in texts:
            if is_front(text):
                fronts.append(text)
                yield text, PATTERN if is_pattern(text) else len(text.encode())
            else:
                yield text, len(text[:-1].encode())


def wrong_places(rows, settings=Settings()):
    """What is wrong with the offsets of texts."""
    told, wrong = answers([about("explain", text, settings=settings) for text, _ in rows])
    for (text, due), answer in zip(rows, told):
        if answer != due and answer.split(" ")[0] != str(due):
            yield f"{text!r} under {settings}: {answer}, not {due}"
    yield from wrong


def wrong_at_random(texts):
    """What is wrong with the offsets of these texts: the text before is the prefix of a pattern, and with one more
    character it isn't."""
    told, wrong = answers([about("explain", text) for text in texts])
    for text, answer in zip(texts, told):
        if (answer == PATTERN) != is_pattern(text):
            yield f"{text!r}: {answer}"
        elif answer != PATTERN:
            place = int(answer.split(" ")[0])
            before = text.encode()[:place].decode(errors="replace")
            after = text[: len(before) + 1]
            if not text.startswith(before) or not is_front(before) or (after != before and is_front(after)):
                yield f"{text!r}: {answer}"
    yield from wrong


def deep_texts(limit):
    """Texts that are patterns, except with this limit on nesting, and the offset of the first character with which no
    pattern within the limit continues."""
    texts = [text for text, due in texts_over("", NESTED, 4 + (limit > 0)) if due == PATTERN]
    with_limit, pattern_model.NEST_LIMIT = pattern_model.NEST_LIMIT, limit
    try:
        deep = [text for text in texts if not is_pattern(text)]
        return [(text, next(i for i in range(len(text)) if not is_front(text[: i + 1]))) for text in deep]
    finally:
        pattern_model.NEST_LIMIT = with_limit


def explained():
    """The rows of the page, and more of them: patterns with their offsets and reasons."""
    rows = example_rows("patterns.md", r"\| `(.+)` \| ([0-9]+) \| (.+) \|", "Where and why")
    more = [(text, f"{place} {reason}") for reason, texts in MORE_EXPLAINED.items() for text, place in texts]
    return [(row[1].replace("\\|", "|"), f"{row[2]} {row[3]}") for row in rows] + more


def wrong_reasons(rows):
    """What is wrong with the offsets and sentences of the page."""
    told, wrong = answers([about("explain", pattern) for pattern, _ in rows])
    for (pattern, due), answer in zip(rows, told):
        place, _, sentence = (answer.split(" ", 2) + ["", ""])[:3]
        if f"{place} {sentence}" != due:
            yield f"{pattern!r}: {answer}, not {due}"
    yield from wrong


def wrong_under_settings():
    """What is wrong with the offsets and the names of reasons of long, deep and other texts."""
    told, wrong = answers([about("explain", pattern, settings=settings) for pattern, settings, _ in EXPLAINED])
    for (pattern, settings, due), answer in zip(EXPLAINED, told):
        if " ".join(answer.split(" ")[:2]) != due:
            yield f"{pattern[:40]!r} .. of {len(pattern)} characters under {settings}: {short(answer.encode())}, not {due}"
    yield from wrong


def patterns():
    """Texts that are patterns, each with its settings."""
    told = examples() + [(pattern, Settings(), tree) for pattern, tree in TREES] + TREES_UNDER
    return [about("explain", pattern, PATTERN, settings) for pattern, settings, tree in told if tree is not None]


def test_all():
    rows = explained()
    test(f"where and why patterns are refused, in {len(rows)} rows of the page", wrong_reasons(rows))
    test(f"places and reasons of {len(EXPLAINED)} texts, long, deep or under settings", wrong_under_settings())
    rows = patterns()
    test(f"{len(rows)} patterns aren't refused", problems(rows))
    refused = REFUSED + [text for text, _, tree in examples() if tree is None]
    refused += [text for texts, trees, _ in tried() for text, tree in zip(texts, trees) if tree is None]
    test(f"places of {len(refused)} refused texts", wrong_at_random(refused))
    for front, alphabet, length in ALPHABETS:
        rows = list(texts_over(front, alphabet, length))
        name = f"places of {len(rows)} texts of {front!r} and at most {length} characters of {alphabet!r}"
        test(name, wrong_places(rows))
    for limit in NEST_LIMITS:
        rows = deep_texts(limit)
        test(f"places of {len(rows)} texts nested deeper than {limit}", wrong_places(rows, Settings(nest_limit=limit)))
    chance = random.Random(57)
    maker = Maker(chance, most_nodes=20)
    texts = [mangled(chance, maker) for _ in range(RANDOM_TEXTS)]
    test(f"places of {len(texts)} texts at random", wrong_at_random(texts))
    if library() is not None:
        for pattern, settings in IN_NEED:
            check_memory(about("explain", pattern, settings=settings), [WANT])
