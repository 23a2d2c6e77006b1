"""All matches of patterns, listed by two passes, on bin/search-driver: in haystacks in chunks, with the offsets in all
slots, also in slices and spans, anchored, and by pattern; and of patterns whose finds read far past their match. A
`Regex` must list the same, and its iterator yield them in short haystacks.

The expected answers are listed here, or are those of the model of tests/models/walks.py for random cases, and, in haystacks
that are longer than the blocks of offsets whose nodes are stored, those of finds of Python's re, in order.
"""
import random
import re

from driver import PROGRAM_WANT, WANT, Case, Settings, check_memory, in_runs, line_of, problems, written
from harness import share_of, short, test
from random_patterns import Maker
from test_match_kind_all import ANYWHERE, AT_START, FIRST, SECOND, SIZES
from test_searches import asked_at_random
from walks import Search, spelled

RANDOM_CASES = share_of(20_000)

# Patterns, haystacks, and all matches, as pattern, end and slots; if not everything has its default, also the slice,
# the span and where matches start, and whether empty matches inside a character are found.
VECTORS = [
    # A branch that reaches only entered nodes is given up, with its notes.
    (["(?:a|())*"], "a", "0 1 0 1 - -"),
    (["(a|(b))*"], "ab", "0 2 0 2 1 2 1 2"),
    # Empty matches, none of them inside a character or where one ended.
    (["x*"], "せ", "0 0 0 0,0 3 3 3"),
    (["x*"], "せ", "0 0 0 0,0 1 1 1,0 2 2 2,0 3 3 3", None, True),
    (["b*"], "ab", "0 0 0 0,0 2 1 2"),
    (["a?"], "aa", "0 1 0 1,0 2 1 2"),
    # Finds that read to the end and match less.
    (["a*b|a"], "aaa", "0 1 0 1,0 2 1 2,0 3 2 3"),
    (["a*b|a"], "aab", "0 3 0 3"),
    ([".*?x|a"], "aay", "0 1 0 1,0 2 1 2"),
    ([".*x|."], "axb", "0 2 0 2,0 3 2 3"),
    (["(a|b)*c|a"], "abab", "0 1 0 1 - -,0 3 2 3 - -"),
    (["(?:a{0,3})*b|a"], "aaa", "0 1 0 1,0 2 1 2,0 3 2 3"),
    # Several patterns, and none.
    (["ab", "a"], "abac", "0 2 0 2 - -,1 3 - - 2 3"),
    (["a", "(b)"], "ab", "0 1 0 1 - - - -,1 2 - - 1 2 1 2"),
    ([], "ab", ""),
    # Slices, spans, and where matches start.
    (["^b", "a"], "abab", "0 2 1 2 - -,1 3 - - 2 3", ((1, 4), (1, 3), ANYWHERE)),
    (["a"], "aab", "0 1 0 1,0 2 1 2", ((0, 9), (0, 9), AT_START)),
    (["b", "a"], "ab", "1 1 - - 0 1", ((0, 9), (0, 9), SECOND)),
    (["a"], "aa", "", ((0, 9), (3, 9), ANYWHERE)),
    (["a"], "aa", "", ((0, 9), (1, 0), ANYWHERE)),
    (["\\bé", "e\\b"], "é e", "0 2 0 2 - -,1 4 - - 3 4"),
    # One literal: no match begins inside the one before, in each slice and span, and across chunks.
    (["aa"], "aaaaa", "0 2 0 2,0 4 2 4"),
    (["a"], "banana", "0 2 1 2,0 4 3 4,0 6 5 6"),
    (["é"], "éxé", "0 2 0 2,0 5 3 5"),
    (["abcab"], "abcabcabcab", "0 5 0 5,0 11 6 11"),
    (["abcabcabx"], "abcabcabcabx", "0 12 3 12"),
    (["ab"], "ababab", "0 4 2 4", ((1, 5), (1, 5), ANYWHERE)),
    (["ab"], "ababab", "0 4 2 4", ((2, 9), (0, 4), ANYWHERE)),
    (["ab"], "ababab", "0 2 0 2", ((0, 3), (0, 9), ANYWHERE)),
    (["ab"], "abab", "0 2 0 2,0 4 2 4", ((0, 9), (0, 9), AT_START)),
    (["ab"], "xab", "", ((0, 9), (0, 9), AT_START)),
]

# Each of these letters is a match, and each find but the last ones reads to the end.
HOSTILE = ["a*b|a", ".*?x|a", ".*x|.", "(a|b)*c|a", "(?:a{0,200})*b|a"]
LETTERS = 20_000

# The least number of offsets of a block. Blocks end at the haystack's end and at each such distance before it.
BLOCK = 4_096
LONG_CASES = 150

# Patterns that are the same for Python's re, and the letters of their haystacks.
ALIKE = [
    ("a", "ab"), ("ab", "ab"), ("b*", "ab"), ("(a)|(b+)", "ab"), ("a*b|a", "ab"), (".*?b|a", "ab"), ("(a|b)*c|a", "abc"),
    ("a+?b", "ab"), ("(?:a|(b)){2,5}", "ab"), ("x*", "ab"), (".*", "ab\n"), (".+", "ab"), ("[^c]+", "abc"), ("\\b", "ab "),
    ("\\ba", "ab "), ("(?m)^a*$", "ab\n"), ("(?m)$", "ab\n"), ("\\B(b)", "ab "), ("^a|b$", "ab"), ("(a?)b??", "ab"),
]


def answer_of(trees, haystack, asked, inside):
    """The model's matches, as the program writes them."""
    slice_, span, anchored = asked
    pattern = anchored - FIRST if anchored >= FIRST else None
    search = Search(trees, haystack, slice_, span, anchored != ANYWHERE, inside, pattern=pattern)
    count = 2 * sum(map(len, search.slots))
    told = []
    for number, groups in search.told():
        slots = ["-"] * count
        for slot, group in zip(search.slots[number], groups):
            if group:
                slots[slot : slot + 2] = map(str, group)
        told.append(" ".join([str(number), str(groups[0][1]), *slots]))
    return count, ",".join(told)


def about(patterns, haystack, count, answer, cut=0, asked=None, inside=False, is_iterated=False):
    slice_, span, anchored = asked or ((None, None), (None, None), None)
    texts = ".".join(map(written, patterns)) if patterns else "-"
    fields = [texts, *Settings().fields(), cut, haystack.hex(), *slice_, *span, anchored, int(inside), count]
    fields.append(int(is_iterated))
    shown = [pattern[:40] for pattern in patterns]
    return Case(f"{shown} in {short(haystack)}, cut by {cut}, {asked}", line_of("listed", *fields), answer)


def vectors():
    for patterns, haystack, answer, *told in VECTORS:
        count = len(answer.split(",")[0].split()) - 2 if answer else 0
        asked, inside = (*told, None, False)[:2]
        for size in SIZES:
            yield about(patterns, haystack.encode(), count, answer, size, asked, bool(inside), True)


def hostile():
    answer = ",".join(f"0 {place + 1} {place} {place + 1}" for place in range(LETTERS))
    for pattern in HOSTILE:
        yield about([pattern], b"a" * LETTERS, 2, answer, 7)


def found_by_re(pattern, haystack, slice_, span, is_tied):
    """The matches of finds of Python's re, in order, each with its slots."""
    compiled = re.compile(pattern.encode())
    low, high = slice_
    cut = haystack[low:high]  # assertions see no further
    find = compiled.match if is_tied else compiled.search
    at, end, last = max(span[0] - low, 0), min(span[1] - low, len(cut)), None
    told = []
    while at <= end:
        found = find(cut[:end] if end < len(cut) else cut, at)
        if not found:
            break
        if found.end() == found.start() == last:
            at, last = at + 1, None
            continue
        slots = [slot + low if slot >= 0 else "-" for group in range(compiled.groups + 1) for slot in found.span(group)]
        told.append(" ".join(map(str, [0, found.end() + low, *slots])))
        at = last = found.end()
    return 2 * compiled.groups + 2, ",".join(told)


def long_cases(count=LONG_CASES):
    chance = random.Random(60)
    for number in range(count):
        pattern, letters = ALIKE[number % len(ALIKE)]
        size = chance.choice((BLOCK - 1, BLOCK, BLOCK + 1, 2 * BLOCK, 2 * BLOCK + 1, chance.randint(1, 4 * BLOCK)))
        weights = [chance.choice((1, 8, 60)) for _ in letters]
        haystack = "".join(chance.choices(letters, weights, k=size)).encode()
        low = chance.choice((0, 0, 1, chance.randint(0, size)))
        slice_ = low, chance.choice((size, chance.randint(low, size)))
        # Python's re sees no further than where it searches, so a span ends where the slice does.
        span = chance.choice((low, chance.randint(low, slice_[1]))), slice_[1]
        is_tied = chance.random() < 0.2
        slots, answer = found_by_re(pattern, haystack, slice_, span, is_tied)
        yield about([pattern], haystack, slots, answer, chance.choice((0, 1, 7, 1000)),
                    (slice_, span, AT_START if is_tied else ANYWHERE))


def at_edges():
    """Matches at, before and after the offsets where blocks end, also empty ones, and inside characters."""
    size = 2 * BLOCK + 5
    for place in (0, 1, 4, 5, 6, BLOCK + 4, BLOCK + 5, BLOCK + 6, size - 1):
        haystack = b"a" * place + b"b" + b"a" * (size - place - 1)
        yield about(["b"], haystack, 2, f"0 {place + 1} {place} {place + 1}")
        yield about(["b??", "b"], haystack, 4, ",".join(f"0 {at} {at} {at} - -" for at in range(size + 1)))
        whole = f"0 {place + 1} 0 {place + 1} {place} {place + 1}"
        yield about(["a*(b)"], haystack, 4, whole, 7)
    text = "せ" * BLOCK
    yield about(["x*"], text.encode(), 2, ",".join(f"0 {at} {at} {at}" for at in range(0, 3 * BLOCK + 1, 3)), 1)
    yield about(["x*"], text.encode(), 2, ",".join(f"0 {at} {at} {at}" for at in range(3 * BLOCK + 1)), 1, None, True)


def at_random(count=RANDOM_CASES):
    chance = random.Random(59)
    maker = Maker(chance, most_nodes=30)
    for _ in range(count):
        trees = tuple(maker.tree() for _ in range(chance.choice((1, 1, 1, 2, 2, 3))))
        haystack = "".join(map(maker.haystack, trees[:2])).encode()[:14]
        slice_, span, is_tied = asked_at_random(chance, len(haystack))
        asked = slice_, span, chance.randint(AT_START, len(trees) + FIRST) if is_tied else ANYWHERE
        inside = chance.random() < 0.2
        slots, answer = answer_of(trees, haystack, asked, inside)
        patterns = [spelled(tree) for tree in trees]
        yield about(patterns, haystack, slots, answer, chance.choice(SIZES), asked, inside, True)


def test_all():
    test("matches are listed as they should", problems(vectors()))
    test("matches are listed where each find reads to the end", problems(hostile()))
    test("matches are listed where blocks of places end", problems(at_edges()))
    test("matches in long haystacks are listed as by finds of re", problems(long_cases()))
    test("matches at random are listed as by the model", in_runs(at_random(), 2_000))
    check_memory(about(["a|ab", "(b)+"], b"abb", 6, "0 1 0 1 - - - -,1 3 - - 1 3 2 3", 1), [WANT, PROGRAM_WANT])
