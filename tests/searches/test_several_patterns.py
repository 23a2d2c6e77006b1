"""Searches for several patterns together, on bin/search-driver, by each engine: all matches in haystacks in chunks,
each with its pattern and its groups, also in slices and spans, anchored, and anchored to a pattern, also by the
iterators of both automaton engines, with a cache and with its clone; all by a `Regex` with each engine on and off, and
with caches of all sizes; all in parts of ropes; and why patterns are refused. The same for the searches for one pattern
of tests/searches/test_searches.py, and of the table tests/models/searches.jsonl.

The expected answers are listed here, or are those of the model of tests/models/walks.py for random cases.
"""
import itertools
import random
import re

from driver import WANT, Case, Settings, check_memory, in_runs, line_of, problems, written
from harness import share_of, short, test
from random_patterns import Maker
from test_match_kind_all import ANYWHERE, AT_START, FIRST, SECOND, SIZES
from test_regexes import AROUND, in_rope
from test_searches import VECTORS as ONES
from test_searches import asked_at_random, listed, rows
from test_settings import CAPACITIES, engines
from test_settings import about as about_settings
from walks import Search, spelled

RANDOM_CASES = share_of(6_000)
ROOMS = itertools.cycle(CAPACITIES[:3])  # enough for each to be combined with each engine

# Patterns, haystacks, and all matches; if not everything has its default, also the slice, the span and where matches
# start.
VECTORS = [
    # If several start at one offset the first pattern's match is found, whichever is longer.
    (["a", "ab"], "ab", "0:0-1"),
    (["ab", "a"], "ab", "0:0-2"),
    (["b", "ab"], "abb", "1:0-2 0:2-3"),
    (["a", "b", "c"], "cab", "2:0-1 0:1-2 1:2-3"),
    (["x", "a|ab", "b"], "ab", "1:0-1 2:1-2"),
    # Each has its groups, and the slots of the others are empty.
    (["(a)(b)", "(a)", "b()"], "abab", "0:0-2,0-1,1-2 0:2-4,2-3,3-4"),
    (["(a)(b)", "(a)", "b()"], "aab", "1:0-1,0-1 0:1-3,1-2,2-3"),
    (["(a)|(b)", "(c)"], "cb", "1:0-1,0-1 0:1-2,-,1-2"),
    # Empty matches, also after one of another pattern.
    (["", "a"], "a", "0:0-0 0:1-1"),
    (["a", ""], "ab", "0:0-1 1:2-2"),
    (["x*", "."], "せ", "0:0-0 0:3-3"),
    (["b*", "a"], "ab", "0:0-0 0:1-2"),
    # The same pattern twice, one that never matches, and none.
    (["a", "a"], "aa", "0:0-1 0:1-2"),
    (["a\\bb", "b"], "ab", "1:1-2"),
    ([], "ab", ""),
    ([], "", ""),
    (["a"], "ba", "1-2"),
    # Slices, spans, and where matches start.
    (["^b", "ab$"], "abab", "1:2-4"),
    (["^b", "a"], "abab", "0:1-2 1:2-3", ((1, 4), (1, 3), ANYWHERE)),
    (["b", "ab"], "abb", "1:0-2 0:2-3", ((0, 9), (0, 9), AT_START)),
    (["b", "ab"], "abb", "", ((0, 9), (0, 9), FIRST)),
    (["b", "ab"], "abb", "1:0-2", ((0, 9), (0, 9), SECOND)),
    (["b", "ab"], "abb", "", ((0, 9), (0, 9), 4)),
    (["b", "bb?"], "abb", "1:1-3", ((0, 9), (1, 9), SECOND)),
    # Words, over bytes at which automata quit.
    (["\\bé", "e\\b"], "é e", "0:0-2 1:3-4"),
]

# A number of bytes great enough that a `Regex` searches backward from where a match ends, patterns, the text after
# these bytes, and where matches are in that, by their patterns. The next match is as far after the last one again.
FAR = 30_000
FAR_ONES = [
    (["x[a-c]*y", "q+"], "xabcay", [(0, 0, 6)]),
    (["[a-z]y", "q+"], "qqy", [(1, 0, 2)]),
    (["b|abb", "z"], " abb", [(0, 1, 4)]),
    (["(?m)^$", "z"], "\n\nz", [(0, 1, 1), (1, 2, 3)]),
    (["\\bq|éé", "z"], " éé q", [(0, 1, 5), (0, 6, 7)]),
]

# Why patterns are refused: for the first text that is no pattern, otherwise for the sum of their weights, plus 1.
REFUSED = [
    (["a", "b(", "c)"], "the pattern isn't in the grammar"),
    (["(", "a" * 65_537], "the pattern isn't in the grammar"),
    (["^a{65535}a{65533}", ""], "the patterns are too large"),
]


def about(patterns, haystack, answer, cut=0, asked=None):
    slice_, span, anchored = asked or ((None, None), (None, None), None)
    texts = ".".join(map(written, patterns)) if patterns else "-"
    fields = [texts, *Settings().fields(), cut, haystack.hex(), *slice_, *span, anchored]
    shown = [pattern[:40] for pattern in patterns]
    return Case(f"{shown} in {short(haystack)}, cut by {cut}, {asked}", line_of("several", *fields), answer)


def under(patterns, haystack, answer, cut=0, asked=None):
    """Cases by a `Regex` with each engine on and off, and with caches of each size in turn."""
    for ways in engines():
        given = ".".join(filter(None, (ways, next(ROOMS))))
        yield about_settings("under", patterns, answer, given, haystack, cut, asked)


def answer_of(trees, haystack, asked):
    """The model's matches, as the program writes them."""
    slice_, span, anchored = asked
    pattern = anchored - FIRST if anchored >= FIRST else None
    told = Search(trees, haystack, slice_, span, anchored != ANYWHERE, pattern=pattern).told()
    return " ".join((f"{number}:" if len(trees) > 1 else "") + listed([groups]) for number, groups in told)


def vectors():
    for (patterns, haystack, answer, *asked), around in zip(VECTORS, itertools.cycle(AROUND)):
        for size in SIZES:
            yield about(patterns, haystack.encode(), answer, size, *asked)
            yield from under(patterns, haystack.encode(), answer, size, *asked)
        yield in_rope("rope", patterns, haystack, answer, (1,), *asked)
        yield in_rope("rope", patterns, haystack, answer, (2, 1, 3), *(asked or [None]), around)


def ones():
    """Searches for one pattern with default settings, and those of the table."""
    for pattern, haystack, answer, *asked in ONES:
        if len(asked) > 1 or re.search("[a-z]", answer):
            continue
        told = [(slice_, span, int(anchored)) for slice_, span, anchored in asked]
        for size in SIZES:
            yield about([pattern], haystack.encode(), answer, size, *told)
            yield from under([pattern], haystack.encode(), answer, size, *told)
    for row, size in zip(rows(), itertools.cycle(SIZES)):
        yield about([row["pattern"]], row["haystack"].encode(), listed(row["matches"]), size)


def far():
    """Searches for matches that are far from one another."""
    for patterns, behind, found in FAR_ONES:
        part = FAR * b"-" + behind.encode()
        for size in SIZES:
            told = [(k, at + start, at + end) for at in (FAR, len(part) + FAR) for k, start, end in found]
            answer = " ".join(f"{k}:{start}-{end}" for k, start, end in told)
            yield about(patterns, 2 * part, answer, size)
            yield from under(patterns, 2 * part, answer, size) if size == 5 else ()


def at_random(count=RANDOM_CASES):
    chance = random.Random(37)
    maker = Maker(chance, most_nodes=30)
    for _ in range(count):
        trees = tuple(maker.tree() for _ in range(chance.choice((0, 1, 2, 2, 2, 3, 3, 4))))
        patterns = [spelled(tree) for tree in trees]
        haystack = "".join(map(maker.haystack, trees[:2])).encode()[:14]
        slice_, span, is_tied = asked_at_random(chance, len(haystack))
        asked = slice_, span, chance.randint(AT_START, len(trees) + FIRST) if is_tied else ANYWHERE
        answer = answer_of(trees, haystack, asked)
        size = chance.choice(SIZES)
        yield about(patterns, haystack, answer, size, asked)
        yield from under(patterns, haystack, answer, size, asked)
        if (text := haystack.decode(errors="ignore")).encode() == haystack:
            yield in_rope("rope", patterns, text, answer, (chance.randint(1, 4), 1), asked, chance.choice(AROUND))


def test_all():
    test("searches for several patterns return the expected matches", problems(vectors()))
    test("searches for one pattern, by each engine", in_runs(ones()))
    test("matches of several patterns, far from one another", problems(far()))
    test(f"{RANDOM_CASES} random searches for several patterns, compared with the model", in_runs(at_random()))
    test("why several patterns are refused", problems(about(patterns, b"", answer) for patterns, answer in REFUSED))
    check_memory(about(["a|ab", "(b)+"], b"abb", "0:0-1,- 1:1-3,2-3", 1), [WANT])
