"""Searches, on bin/search-driver: all matches with their groups, and what one search notes in slots, in haystacks in
chunks, also in slices and spans, anchored, and with settings of the engine.

The expected answers are those of the table tests/models/searches.jsonl, made with Python's re, those listed here, and those of
the model of tests/models/walks.py, for random cases and for all slices and spans of short haystacks. SEARCH_DRIVER names
another program than bin/search-driver.
"""
import itertools
import json
import os
import random

from driver import OUTSIDE, PROGRAM_WANT, TOO_DEEP, TOO_LARGE, TOO_LONG, WANT, Case, Settings
from driver import answer_to, check_memory, problems, search
from harness import TOP, differences, short, test
from memory import library, tallied
from protocol import is_utf8
from random_patterns import Maker, character
from walks import LOOKS, Alternation, Concat, Empty, Group, Look, Repeat, Search, Set, is_word, spelled

SIZES = (0, 1, 2, 3)  # the number of bytes of a chunk; 0: all are one chunk
RANDOM_CASES, CASES_UNDER_SETTINGS, RANDOM_SLOTS, BROKEN_HAYSTACKS = 1_500, 700, 500, 400
SEARCHERS_CASES = 400

ALL, FIRST, SECOND = True, 2, 3  # anchored: matches start only at the span's start; of pattern 0, or of pattern 1
BY_SEMICOLON, BY_LINE_FEED = Settings("m", line_end=ord(";")), Settings("m", line_end=ord("\n"))

# Patterns, haystacks and their answers; if not everything has its default, also the slice, the span, and where matches
# start, and then perhaps whether empty matches inside a character are found, and settings.
VECTORS = [
    ("\\b", "a b c", "0-0 1-1 2-2 3-3 4-4 5-5"),
    ("x*", "x", "0-1"),
    ("\\bx*\\b", "x", "0-1"),
    (".", " ", "0-1"),
    ("(?m)(?:^|a)+", "a\naaa\n", "0-0 2-2 3-5 6-6"),
    ("^bar", "foobar", ""),
    ("foo$", "foobar", ""),
    ("(a)|b", "b", "0-1,-"),
    ("x*", "せ", "0-0 3-3"),
    ("$|:", ":a", "0-1 2-2"),
    ("a", "ba", "1-2"),
    ("a|ab", "ab", "0-1"),
    ("(a+?)(a*)", "aaa", "0-3,0-1,1-3"),
    ("", "", "0-0"),
    ("\\B", "", "0-0"),
    ("\\b", "é", "0-0 2-2"),
    ("(a){0}b", "ab", "1-2,-"),
    ("(" * 250 + "a" + ")" * 250, "a", ",".join(["0-1"] * 251)),
    # After the iteration that reads `b` none follows that reads nothing: it would lead to the same fork again.
    ("(b|)+", "b", "0-1,0-1"),
    ("(a*)*", "b", "0-0,0-0 1-1,1-1"),
    # A group keeps its span of an earlier iteration.
    ("(?:(a)|b)+", "ab", "0-2,0-1"),
    # Assertions see the slice, all of it and nothing else.
    ("foo$", "xfoox", "1-4", ((1, 4), (1, 4), False)),
    ("^foo$", "xfoox", "1-4", ((1, 4), (1, 4), False)),
    ("^foo$", "xfoox", "", ((0, 5), (1, 4), False)),
    ("\\bfoo\\b", "xfoox", "", ((0, 5), (1, 4), False)),
    ("\\Bfoo\\B", "xfoox", "1-4", ((0, 5), (1, 4), False)),
    # A split character is no word character, and there is no `\B` next to it.
    ("\\B", "éé", "", ((1, 3), (1, 3), False)),
    ("\\b|\\B", "aé", "0-0 1-1", ((0, 2), (0, 2), False)),
    # A span may end past the haystack, start past it, or start past its end.
    ("a*", "aa", "1-2", ((0, 9), (1, 9), False)),
    ("a*", "aa", "", ((0, 9), (3, 9), False)),
    ("a*", "aa", "", ((0, 2), (2, 1), False)),
    ("b", "ab", "", ((0, 2), (0, 2), True)),
    ("b", "abb", "1-2 2-3", ((0, 3), (1, 3), True)),
    ("b", "abb", "1-2 2-3", ((0, 3), (1, 3), FIRST)),
    ("b", "abb", "", ((0, 3), (1, 3), SECOND)),
    # Empty matches inside a character are found if the engine is set to do so, and lines end at the byte that is set.
    ("x*", "せ", "0-0 1-1 2-2 3-3", ((0, 9), (0, 9), False), True),
    ("x*", "せx", "0-0 3-4", ((0, 9), (0, 9), False), False),
    ("x*", "せ", "0-0 3-3", ((0, 9), (0, 9), False), False, BY_LINE_FEED),
    ("^b", "a;b", "2-3", ((0, 9), (0, 9), False), False, BY_SEMICOLON),
    ("a$|^b", "a\nb", "", ((0, 9), (0, 9), False), False, BY_SEMICOLON),
    ("a$|^b", "a\nb", "0-1 2-3", ((0, 9), (0, 9), False), True, BY_LINE_FEED),
    ("a.", "aka;", "2-4", ((0, 9), (0, 9), False), False, Settings(no_dot=ord("k"))),
    ("A+", "aAb", "0-1 1-2", ((0, 9), (0, 9), False), False, Settings("iU")),
    # Why there is no answer.
    ("(", "a", OUTSIDE),
    ("(" * 251 + "a" + ")" * 251, "a", TOO_DEEP),
    ("a" * 65_537, "a", TOO_LONG),
    ("a{65535}{65535}", "a", TOO_LARGE),
]

# At the limits of numbers: patterns nested as deeply as allowed, and slices and spans that end past every haystack.
DEEP, MOST = Settings(nest_limit=65_535), 2**64 - 1
EXTREMES = [
    ("a" + "*" * 65_535, "aab", "0-2 3-3", None, False, DEEP),
    ("(?:" * 13_106 + "a|b" + ")" * 13_106, "xab", "1-2 2-3", None, False, DEEP),
    ("a+|$", "aab", "0-2 3-3", ((0, MOST), (0, MOST), False)),
    ("a+|$", "aab", "1-2 3-3", ((1, MOST), (1, MOST), False)),
    ("a+|$", "aab", "", ((0, MOST), (MOST, MOST), False)),
    ("a+|$", "aab", "", ((MOST, MOST), (0, MOST), False)),
]

# Patterns, how haystacks are split, these, the search, and what the first match notes in slots: its pattern, or that
# there is none, and then an offset or a dash for each slot.
SLOTS = [
    # Groups are returned, and assertions see the bytes of the neighbouring chunks.
    ("(b)|(c)", "1", "a b c", None, "0 2 3 2 3 - -"),
    ("(\\w) (\\w)$", "1", "a b c", None, "0 2 5 2 3 4 5"),
    ("(?:(\\w) ?)*", "1", "a b c", None, "0 0 5 4 5 - -"),
    (" \\b(.)", "1", "a b c", None, "0 1 3 2 3 - -"),
    ("x*", "1", "a b c", None, "0 0 0 - - - -"),
    ("^b", "1", "a b c", None, "none - - - - - -"),
    ("\\Bb", "1", "a b c", None, "none - - - - - -"),
    # Chunks may split a character, and be empty.
    ("(.)b", "1.3", "せb", None, "0 0 4 0 3 - -"),
    ("\\B", "1.3", "せb", None, "0 3 3 - - - -"),
    ("b\\b", "1.3", "せb", None, "0 3 4 - - - -"),
    ("[^b]$", "1.3", "せb", None, "none - - - - - -"),
    # There is no empty match inside a character, wherever the span starts.
    ("x*", "0", "せb", ((0, 9), (1, 4), False), "0 3 3 - - - -"),
    ("(.)", "0", "せb", ((0, 9), (1, 4), False), "0 3 4 3 4 - -"),
    # A slice hides the text outside from assertions, and a span doesn't.
    ("^bar", "0", "foobar", ((0, 6), (3, 6), False), "none - - - - - -"),
    ("^bar", "0", "foobar", ((3, 6), (3, 6), False), "0 3 6 - - - -"),
    ("fo(o*?)", "0", "foobar", ((0, 6), (0, 2), False), "0 0 2 2 2 - -"),
    # An anchored search finds what starts with the span; that of a pattern that doesn't exist finds nothing.
    ("bar", "0", "foobar", ((0, 6), (3, 6), False), "0 3 6 - - - -"),
    ("bar", "0", "foobar", ((0, 6), (3, 6), ALL), "0 3 6 - - - -"),
    ("bar", "0", "foobar", ((0, 6), (3, 6), FIRST), "0 3 6 - - - -"),
    ("bar", "0", "foobar", ((0, 6), (3, 6), SECOND), "none - - - - - -"),
    ("bar", "0", "foobar", ((0, 6), (0, 6), ALL), "none - - - - - -"),
    # A byte that was skipped where an assertion failed isn't where it holds.
    ("\\bb", "5.2.3", "abab b.\nbb", None, "0 5 6 - - - -"),
    ("(?m)^b|c", "5.2.3", "abab b.\nbb", None, "0 8 9 - - - -"),
    ("[b]$", "5.2.3", "abab b.\nbb", None, "0 9 10 - - - -"),
    # Slots are noted, and restored.
    ("(a)|(b)", "0", "b", None, "0 0 1 - - 0 1"),
    ("(b)|(b)", "0", "b", None, "0 0 1 0 1 - -"),
    ("(b*)(b*)", "0", "b", None, "0 0 1 0 1 1 1"),
    ("(b*?)(b*)", "0", "b", None, "0 0 1 0 0 0 1"),
    ("(?:(a)|(b))*", "0", "b", None, "0 0 1 - - 0 1"),
    ("(?:(b)|(a))*", "0", "b", None, "0 0 1 0 1 - -"),
    ("((b)a|b)", "0", "b", None, "0 0 1 0 1 - -"),
    ("(b)(a)", "0", "b", None, "none - - - - - -"),
    # There may be fewer slots than the program has, and more.
    ("(a)", "0", "a", None, "0"),
    ("(a)", "0", "ab", None, "0 0"),
    ("(a)", "0", "a", None, "0 0 1"),
    ("(a)", "0", "aa", None, "0 0 1 0"),
    ("(a)", "0", "aa", None, "0 0 1 0 1"),
    ("(a)", "0", "ba", None, "0 1 2 1 2 - - - -"),
    ("(a)", "0", "b", None, "none"),
    ("(a)", "0", "b", None, "none - - - - -"),
]

A, ACUTE, WORD, ANY = character("a"), character("é"), Set("\\w", is_word), Set("(?s:.)", lambda c: True)
# Trees that are searched for in all slices and spans, and the haystacks.
SMALL_TREES = [Look(text) for text in LOOKS] + [
    Repeat(A, 0, None),
    Repeat(Alternation((A, Look("(?m:^)"), Look("\\b"))), 1, None),
    Concat((Group(1, Repeat(A, 0, None, False)), Group(2, Alternation((ACUTE, Look("(?m:$)"), Empty()))))),
    Repeat(Group(1, Alternation((Group(2, A), Repeat(ACUTE, 0, 1), Look("\\B")))), 2, 3),
    Concat((Group(1, Repeat(ANY, 1, None, False)), Look("\\b"))),
    Concat((Repeat(WORD, 1, None), Repeat(Group(1, ANY), 0, 1))),
]
SMALL_HAYSTACKS = ["a a", "éa", "aaé\n", "a\na", "せ", "🐸a"]

# The parts of haystacks that are no UTF-8: characters; parts of them; a surrogate, a character spelled in more bytes
# than it takes, a number past the last character, and a byte that no character has.
UNITS = [text.encode() for text in "aab \néせ🐸"]
UNITS += [b"\xc3", b"\xe3\x81", b"\x81", b"\xf0\x9f\x90", b"\xf0", b"\x9f\x90", b"\x80"]
UNITS += [b"\xed\xa0\x80", b"\xc0\x81", b"\xf4\x90\x80\x80", b"\xff"]

# A haystack that repeats after each 50 bytes, so that its long part leads a search to nothing that its short one
# doesn't. Both parts start at one offset, and their ends have equally many digits, so that all cases take the same
# memory to read. And patterns that match nothing in a part, or all of it: then with the offsets of their groups, as far
# before its end.
LONG = "fn aab(é: &str) -> 🐸 { abab_9 + b } // ééé\n".encode() * 20_000
START, SHORT_END, LONG_END = 100_000, 101_000, 999_000
MATCHING_NOTHING = ["(a|b|ab)*c", "(\\w+)\\s*=>\\s*(\\w+)", "(?i)todo|error", "(?:([a-é]+?)|\\b){2,5}x"]
MATCHING_ALL = [("(?s).+", []), ("(?:(\\w+)|(\\W))+", [(7, 1), (1, 0)]), ("(?s)(?:(.)(.)?)*", [(3, 1), (1, 0)])]


def listed(matches):
    """Matches as the program writes them."""

    def place(span):
        return "-" if span is None else f"{span[0]}-{span[1]}"

    return " ".join(",".join(map(place, groups)) for groups in matches)


def case_of(tree, haystack, cut=0, asked=None, inside=False, line_end=b"\n"):
    """A case with the model's answer."""
    matches = Search(tree, haystack, *(asked or (None, None, False)), inside, line_end).matches()
    settings = Settings(line_end=line_end[0])
    return search(spelled(tree), haystack, listed(matches), cut, asked, inside, settings)


def slots_of(tree, haystack, count, cut=0, asked=None):
    """A case with this number of slots and the model's answer."""
    model = Search(tree, haystack, *(asked or ()))
    found = model.find(model.span[0])
    places = [str((found or {}).get(slot, "-")) for slot in range(count)]
    answer = " ".join(["none" if found is None else "0", *places])
    return search(spelled(tree), haystack, answer, cut, asked, slots=count)


def rows():
    """The rows of the table."""
    with open(os.path.join(TOP, "tests", "models", "searches.jsonl"), encoding="utf-8") as file:
        return [json.loads(line) for line in file]


def table():
    for size, row in itertools.product(SIZES, rows()):
        yield search(row["pattern"], row["haystack"].encode(), listed(row["matches"]), size)


def vectors():
    for size, (pattern, haystack, answer, *asked) in itertools.product(SIZES, VECTORS + EXTREMES):
        yield search(pattern, haystack.encode(), answer, size, *asked)


def told_slots():
    for pattern, cut, haystack, asked, answer in SLOTS:
        yield search(pattern, haystack.encode(), answer, cut, asked, slots=len(answer.split()) - 1)


# Slots for only the whole match, if group 1 takes part and has none. Captures without more must return the same.
WHOLES = [
    search("(a)|b", b"xab", "0 1 2", 1, slots=2),
    search("(a)*", b"aab", "0 0 2", slots=2),
    search("(a)", b"b", "none - -", slots=2),
]


def asked_at_random(chance, length):
    """A slice, a span, mostly inside it, and anchoring."""

    def part(low, high):
        first = chance.randint(low, high)
        return first, chance.randint(first, high)

    slice_ = chance.choice([(0, length), part(0, length), part(0, length + 2)])
    span = chance.choice([slice_, part(*slice_), part(*slice_), part(0, length + 2)])
    return slice_, span, chance.random() < 0.3


def is_worth(chance, case):
    """Whether to send the case: most of those with only empty matches aren't sent."""
    wholes = [match.split(",")[0].split("-") for match in case.answer.split()]
    return any(start != end for start, end in wholes) or chance.random() < 0.3


def at_random(seed, count, has_settings=False):
    """Random cases, perhaps with empty matches inside characters and another byte that ends lines."""
    chance, settings = random.Random(seed), ()
    maker = Maker(chance)
    while count > 0:
        tree = maker.tree()
        haystack = maker.haystack(tree).encode()
        asked = asked_at_random(chance, len(haystack)) if count % 3 else None
        size = chance.choice((0, 1, 2, 3, 5))
        if has_settings:
            settings = (chance.random() < 0.5, chance.choice([b"\n", b"a", b" ", b"\x81"]))
        case = case_of(tree, haystack, size, asked, *settings)
        if is_worth(chance, case):
            count -= 1
            yield case


def by_searchers(cases):
    """The cases of searches, as those of a searcher: the matches without their groups, and where each ends."""
    for case in cases:
        wholes = [match.split(",")[0] for match in case.answer.split()]
        ends = [whole.split("-")[1] for whole in wholes]
        for word, answer in ("advance", wholes), ("advance_half", ends):
            yield Case(f"{word}: {case.name}", case.line.replace("search", word, 1), " ".join(answer))


def slots_at_random(count=RANDOM_SLOTS):
    chance = random.Random(13)
    maker = Maker(chance)
    for _ in range(count):
        tree = maker.tree()
        haystack = maker.haystack(tree).encode()
        asked = chance.choice([None, asked_at_random(chance, len(haystack))])
        yield slots_of(tree, haystack, chance.randint(0, 2 * maker.groups + 4), chance.choice((0, 1, 2)), asked)


def pairs(low, high):
    """All pairs of offsets in order, from `low` up to `high`."""
    return itertools.combinations_with_replacement(range(low, high + 1), 2)


def slices_and_spans():
    sizes = itertools.cycle((0, 1, 2))
    for text, tree in itertools.product(SMALL_HAYSTACKS, SMALL_TREES):
        haystack = text.encode()
        for slice_ in pairs(0, len(haystack)):
            for span, is_anchored in itertools.product(pairs(*slice_), (False, True)):
                yield case_of(tree, haystack, next(sizes), (slice_, span, is_anchored))


def broken(chance, maker, tree):
    """A random haystack of units, or one with possible matches, with a byte removed or changed."""
    if chance.random() < 0.5:
        return b"".join(chance.choice(UNITS) for _ in range(chance.randint(1, 7)))
    haystack = maker.haystack(tree).encode()
    at = chance.randint(0, len(haystack))
    return haystack[:at] + chance.choice([b"", chance.choice(UNITS)]) + haystack[at + 1 :]


def not_utf8(count=BROKEN_HAYSTACKS):
    chance = random.Random(12)
    maker = Maker(chance)
    while count > 0:
        tree = maker.tree()
        haystack = broken(chance, maker, tree)
        asked = chance.choice([None, asked_at_random(chance, len(haystack))])
        cases = [case_of(tree, haystack, size, asked) for size in (0, 1)]
        if not is_utf8(haystack) and is_worth(chance, cases[0]):
            count -= 1
            yield from cases


# Each has its requests for memory refused in turn.
IN_NEED = [
    search("(a)|b", b"ab", "0-1,0-1 1-2,-", 1),
    search("(?:([a-é]+?)|\\b){2}x?", "aé 🐸".encode(), "0-3,1-3", 2),
    search("a*", b"xaa", "1-2", 1, ((0, 3), (1, 2), True)),
]


def memory_for(pattern, groups, end, *how):
    """What is wrong with the answer to a search in a part of the long haystack, and how often and for how many bytes
    the program requests memory."""
    matches = [] if groups is None else [[(START, end)] + [(end - first, end - last) for first, last in groups]]
    case = search(pattern, LONG, listed(matches), *how)
    ended, count, _, total = tallied(lambda environment: answer_to(case.line, environment))
    return differences(ended, f"{case.answer}\n".encode(), 0), (count, total)


def in_part(end):
    """A search in a part of the long haystack, which is in chunks."""
    return 984, ((0, len(LONG)), (START, end), False)


def in_front(end):
    """A search in the last part of the long haystack, which is cut off there, and is in one chunk."""
    return 0, ((0, end), (START, end), False), False, Settings(), None, end


def check_long(pattern, groups=None):
    """A search requests memory as often in the long part as in the short one, and for as many bytes, and so in a long
    haystack and in a short one."""
    for name, how in [("parts of a content", in_part), ("contents", in_front)]:
        wrong, little = memory_for(pattern, groups, SHORT_END, *how(SHORT_END))
        more_wrong, much = memory_for(pattern, groups, LONG_END, *how(LONG_END))
        if little != much:
            more_wrong.append("%d requests for %d bytes in short %s, %d for %d in long ones" % (*little, name, *much))
        name = f"{pattern!r} in {name} that end at {SHORT_END} and {LONG_END}, with {little[0]} requests for memory"
        test(name, wrong + more_wrong)


# A haystack in whose parts `a|` has equally many matches, written in equally many bytes. In the second an empty match
# is skipped after each, so it is searched almost twice as often, with one cache.
OFTEN, SELDOM_IN, OFTEN_IN = b"x" * 100 + b"a" * 8 + b"ax" * 8, (100, 108), (108, 123)


def wrong_often():
    """What is wrong with more searches with one cache: they request no more memory."""
    told = []
    for start, end in (SELDOM_IN, OFTEN_IN):
        matches = [[(at, at + 1)] for at in range(start, end) if OFTEN[at : at + 1] == b"a"]
        case = search("a|", OFTEN, listed(matches), 1, ((0, len(OFTEN)), (start, end), False))
        ended, count, _, total = tallied(lambda environment, case=case: answer_to(case.line, environment))
        yield from differences(ended, f"{case.answer}\n".encode(), 0)
        told.append((count, total))
    if told[0] != told[1]:
        yield "%d requests for %d bytes in few searches, %d for %d in more" % (*told[0], *told[1])


def test_all():
    parts = [
        ("searches of the table, in one chunk and in chunks of 1, 2 and 3 bytes", table()),
        ("searches with listed answers, in such chunks", vectors()),
        ("searches with all slots, more or fewer than there are", told_slots()),
        ("searches with slots only for whole matches", WHOLES),
        ("random searches, in random slices, spans and chunks", at_random(11, RANDOM_CASES)),
        ("random searches under random settings", at_random(14, CASES_UNDER_SETTINGS, True)),
        ("calls of searchers, for the searches of the table", by_searchers(table())),
        ("calls of searchers, for random searches", by_searchers(at_random(15, SEARCHERS_CASES))),
        ("random searches for the first match's slots", slots_at_random()),
        ("searches in all slices and spans of short haystacks", slices_and_spans()),
        ("searches in bytes that are not UTF-8", not_utf8()),
    ]
    for name, cases in parts:
        cases = list(cases)
        test(f"{len(cases)} {name}", problems(cases))
    if library() is not None:
        due = [PROGRAM_WANT, WANT, b"again"]
        for case in IN_NEED:
            check_memory(case, due, f"{case.answer}\n".encode())
        check_memory(WHOLES[0], [PROGRAM_WANT, WANT], f"{WHOLES[0].answer}\n".encode())
        test("more searches with one cache request no more memory", wrong_often())
        for pattern in MATCHING_NOTHING:
            check_long(pattern)
        for pattern, groups in MATCHING_ALL:
            check_long(pattern, groups)
