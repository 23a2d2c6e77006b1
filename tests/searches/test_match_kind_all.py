"""Searches for all matches, of one pattern or of several, on bin/search-driver: of all walks the greatest end, then the
least start, then the least pattern, in haystacks in chunks, also in slices and spans, anchored, and with settings; and
the next match after each. The step of all walks, the PikeVM and a `Regex` must agree.

The expected answers are listed here, or are those of the model of tests/models/walks.py for random cases and for all spans of
short haystacks.
"""
import itertools
import random

from driver import PROGRAM_WANT, WANT, Case, Settings, answer_to, check_memory, line_of, problems, written
from harness import share_of, short, test
from memory import counted
from random_patterns import Maker, character
from test_searches import asked_at_random, pairs
from walks import Alternation, Concat, Empty, Look, Repeat, Search, Set, spelled

SIZES = (0, 1, 2, 3, 5)  # the number of bytes of a chunk; 0: all are one chunk
RANDOM_CASES = share_of(4_000)
ANYWHERE, AT_START, FIRST, SECOND = 0, 1, 2, 3  # where matches start: only at the span's start, of this pattern
BY_SEMICOLON = Settings("m", line_end=ord(";"))

# Patterns, haystacks, and matches, as pattern, start and end; if not everything has its default, also the slice, the
# span and where matches start, whether empty matches inside a character are found, and settings.
VECTORS = [
    # The greatest end, of any pattern, and with any start.
    (["a", "ab"], "ab", "1 0 2"),
    (["ab", "a"], "ab", "0 0 2"),
    (["b", "abb"], "abab", "0 3 4"),
    (["a", "b"], "ab", "1 1 2"),
    (["a|ab"], "abb", "0 0 2"),
    (["a+?"], "aab", "0 0 2"),
    (["a+"], "aabab", "0 3 4"),
    # Of these the least start, and of those the least pattern.
    (["b", "a?b", "ab"], "ab", "1 0 2"),
    (["b", "ab", "a?b"], "ab", "1 0 2"),
    (["a", "a", "aa?"], "a", "0 0 1"),
    (["b*c", "abc|c"], "abc", "1 0 3"),
    # An empty match may end last, if one may be there.
    (["a*"], "aab", "0 3 3"),
    (["a*", ""], "aa", "0 0 2"),
    (["", "b"], "ab", "1 1 2"),
    (["x*"], "せ", "0 3 3"),
    (["x*"], "せ", "0 0 0", ((0, 9), (0, 2), ANYWHERE)),
    (["x*"], "せ", "0 2 2", ((0, 9), (0, 2), ANYWHERE), True),
    (["x*"], "せ", "none", ((0, 9), (1, 2), ANYWHERE)),
    (["x*"], "せ", "0 1 1", ((0, 9), (1, 2), AT_START), True),
    (["x*", "."], "せ", "1 0 3"),
    # No pattern, and none that matches.
    ([], "ab", "none"),
    ([], "", "none"),
    (["b", "c"], "a", "none"),
    # Slices, spans, and where matches start.
    (["^b", "ab$"], "abab", "1 2 4"),
    (["^b", "a"], "abab", "0 1 2", ((1, 4), (1, 2), ANYWHERE)),
    (["^b", "ab"], "abab", "1 2 4", ((0, 4), (1, 4), ANYWHERE)),
    (["b", "ab"], "abb", "1 0 2", ((0, 9), (0, 9), AT_START)),
    (["b", "ab"], "abb", "none", ((0, 9), (0, 9), FIRST)),
    (["b", "ab"], "abb", "1 0 2", ((0, 9), (0, 9), SECOND)),
    (["b", "ab"], "abb", "none", ((0, 9), (0, 9), 4)),
    (["b", "bb?"], "abb", "1 1 3", ((0, 9), (1, 9), AT_START)),
    (["a*"], "aa", "none", ((0, 9), (3, 9), ANYWHERE)),
    (["a*"], "aa", "none", ((0, 2), (2, 1), ANYWHERE)),
    (["a*"], "aa", "0 1 2", ((0, 9), (1, 9), AT_START)),
    # Assertions see the neighbouring chunks, and that a split character is one.
    (["\\bb", "\\Bb"], "b ab", "1 3 4"),
    (["\\b|\\B"], "aé", "0 1 1", ((0, 2), (0, 2), ANYWHERE)),
    (["^b", "a$"], "a;b", "0 2 3", ((0, 9), (0, 9), ANYWHERE), False, BY_SEMICOLON),
    (["a$|;"], "a;b", "0 1 2", ((0, 9), (0, 9), ANYWHERE), False, BY_SEMICOLON),
    (["(a)(b)?|b(c)", "[ab]+"], "abc", "0 1 3"),
]

# Matches in order.
LISTS = [
    (["a", "ab"], "abab", "1 2 4"),
    (["a|ab"], "abx", "0 0 2"),
    (["a+"], "aaba", "0 3 4"),
    (["x*"], "せ", "0 3 3"),
    (["x*"], "xx", "0 0 2"),
    (["", "b"], "ab", "1 1 2"),
    (["a", "ab"], "ab", "0 0 1", ((0, 1), (0, 1), ANYWHERE)),
    (["a"], "aab", "0 0 1,0 1 2", ((0, 3), (0, 3), AT_START)),
    (["a*?", "b"], "aab", "0 0 2,1 2 3", ((0, 3), (0, 3), AT_START)),
    (["a*", "b"], "aab", "0 0 2,0 3 3", ((0, 3), (0, 3), FIRST)),
    (["[ab]"], "ab", "0 0 1,0 1 2", ((0, 2), (0, 2), AT_START)),
    (["b"], "ab", "", ((0, 2), (0, 1), ANYWHERE)),
    ([], "ab", ""),
]

SMALL_HAYSTACKS = ("", "aab", "abab", "éa", "b\na")
A, B = character("a"), character("b")
SMALL_TREES = (
    (Alternation((A, Concat((A, B)))), B),
    (Repeat(A, 0, None), Concat((A, B))),
    (Empty(), Repeat(Set(".", lambda c: c != "\n"), 1, None, False)),
    (Look("\\b"), Concat((Look("^"), A)), Concat((B, Look("$")))),
)


def about(patterns, haystack, answer, cut=0, asked=None, inside=False, settings=Settings(), earliest=False, again=True):
    """A case of one search, or of two with one cache, with a slice, a span, and where matches start."""
    slice_, span, anchored = asked or ((None, None), (None, None), None)
    texts = ".".join(map(written, patterns)) if patterns else "-"
    fields = [texts, *settings.fields(), cut, haystack.hex(), *slice_, *span, anchored, int(inside), int(earliest), int(again)]
    name = f"{patterns} in {short(haystack)}, cut by {cut}, {asked}, inside {inside}, earliest {earliest}, {settings}"
    return Case(name, line_of("all", *fields), answer)


def about_list(patterns, haystack, answer, cut=0, asked=None, inside=False, settings=Settings()):
    """A case of all matches, in order."""
    slice_, span, anchored = asked or ((None, None), (None, None), None)
    texts = ".".join(map(written, patterns)) if patterns else "-"
    fields = [texts, *settings.fields(), cut, haystack.hex(), *slice_, *span, anchored, int(inside)]
    name = f"all of {patterns} in {short(haystack)}, cut by {cut}, {asked}, inside {inside}, {settings}"
    return Case(name, line_of("best", *fields), answer)


def model_of(trees, haystack, asked, inside, line_end):
    """The model of a search, and the pattern to which it is anchored, if any."""
    slice_, span, anchored = asked
    pattern = anchored - FIRST if anchored >= FIRST else None
    return Search(trees, haystack, slice_, span, anchored != ANYWHERE, inside, line_end), pattern


def found_by(model, pattern):
    found = model.find_all(model.span[0], pattern)
    return "none" if found is None else " ".join(map(str, found))


def case_of(trees, haystack, cut=0, asked=None, inside=False, line_end=b"\n", earliest=False):
    """A case with the model's answer; if any match may be returned, by the matches up to the first match end."""
    asked = asked or ((0, len(haystack)), (0, len(haystack)), ANYWHERE)
    slice_, span, anchored = asked
    answer = found_by(*model_of(trees, haystack, asked, inside, line_end))
    if earliest and answer != "none":
        cut_spans = (model_of(trees, haystack, (slice_, (span[0], end), anchored), inside, line_end)
                     for end in range(span[0], len(haystack) + 1))
        answer = next(found for found in itertools.starmap(found_by, cut_spans) if found != "none")
    settings = Settings(line_end=line_end[0])
    return about([spelled(tree) for tree in trees], haystack, answer, cut, asked, inside, settings, earliest)


def vectors():
    for size, (patterns, haystack, answer, *asked) in itertools.product(SIZES, VECTORS):
        yield about(patterns, haystack.encode(), answer, size, *asked)


def at_random(count=RANDOM_CASES):
    chance = random.Random(31)
    maker = Maker(chance, most_nodes=30)
    for _ in range(count):
        trees = tuple(maker.tree() for _ in range(chance.choice((0, 1, 1, 2, 2, 3, 4))))
        haystack = "".join(map(maker.haystack, trees[:2])).encode()[:12]
        slice_, span, is_tied = asked_at_random(chance, len(haystack))
        asked = slice_, span, chance.randint(AT_START, len(trees) + FIRST) if is_tied else ANYWHERE
        settings = chance.random() < 0.3, chance.choice([b"\n", b"\n", b"a", b"\x81"])
        yield case_of(trees, haystack, chance.choice((0, 1, 2, 3)), asked, *settings, chance.random() < 0.25)


def lists():
    for size, (patterns, haystack, answer, *asked) in itertools.product(SIZES, LISTS):
        yield about_list(patterns, haystack.encode(), answer, size, *asked)


def lists_at_random(count=RANDOM_CASES):
    chance = random.Random(37)
    maker = Maker(chance, most_nodes=20)
    for _ in range(count):
        trees = tuple(maker.tree() for _ in range(chance.choice((1, 1, 2, 3, 4))))
        haystack = "".join(map(maker.haystack, trees[:2])).encode()[:10]
        slice_, span, is_tied = asked_at_random(chance, len(haystack))
        asked = slice_, span, chance.randint(AT_START, len(trees) + FIRST) if is_tied else ANYWHERE
        inside, line_end = chance.random() < 0.3, chance.choice([b"\n", b"\n", b"a", b"\x81"])
        model, pattern = model_of(trees, haystack, asked, inside, line_end)
        answer = ",".join(" ".join(map(str, found)) for found in model.all_told(pattern))
        patterns = [spelled(tree) for tree in trees]
        yield about_list(patterns, haystack, answer, chance.choice(SIZES), asked, inside, Settings(line_end=line_end[0]))


def spans():
    sizes = itertools.cycle((0, 1, 2))
    for text, trees in itertools.product(SMALL_HAYSTACKS, SMALL_TREES):
        haystack = text.encode()
        for slice_ in pairs(0, len(haystack)):
            for span, anchored in itertools.product(pairs(*slice_), (ANYWHERE, AT_START, SECOND)):
                yield case_of(trees, haystack, next(sizes), (slice_, span, anchored))


def again_with_one_cache():
    """A second search with the same cache requests no memory."""
    haystack = b"aab" * 500
    patterns = ["a*b", "a+", "ab|ba", "[ab]+?"]
    once, twice = (about(patterns, haystack, "1 0 1500", 7, again=again) for again in (False, True))
    counts = [counted(lambda environment, case=case: answer_to(case.line, environment))[1] for case in (once, twice)]
    return [] if counts[0] == counts[1] else [f"{counts[1]} requests for memory in two searches, {counts[0]} in one"]


def test_all():
    test("a search for all matches with a used cache requests no memory", again_with_one_cache())
    check_memory(about(["a|ab", "(b)+"], b"abb", "1 1 3", 1), [WANT, PROGRAM_WANT])
    check_memory(about_list(["a", "(b)+?"], b"ab", "1 1 2", 1), [WANT, PROGRAM_WANT])
    test("searches for all matches return the expected ones", problems(vectors()))
    test("random searches for all matches, compared with the model", problems(at_random()))
    test("lists under MatchKind::All are the expected ones", problems(lists()))
    test("random lists under MatchKind::All, compared with the model", problems(lists_at_random()))
    test("searches for all matches in all spans of short haystacks, compared with the model", problems(spans()))
