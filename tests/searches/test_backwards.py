"""The results of backward searches, of one pattern or of several, on bin/search-driver: of the matches that end at the
end of the span the least start, then the least pattern, in haystacks in chunks, also in slices and spans and with
settings. Both automaton engines must agree, and so must the automaton of the reversed program, with caches of four
capacities: it may also quit before a byte of 128 or more, if a pattern has `\\b` or `\\B`, and give up if its cache is
small.

The expected answers are listed here, or are those of the model of tests/models/walks.py for random cases and for all spans of
short haystacks.
"""
import itertools
import random
import re

from driver import WANT, Case, Settings, answers, check_memory, in_runs, line_of, problems, written
from harness import share_of, short, test
from random_patterns import Maker
from test_match_kind_all import ANYWHERE, AT_START, FIRST, SECOND, SIZES, SMALL_HAYSTACKS, SMALL_TREES, model_of
from test_searches import asked_at_random, pairs
from walks import spelled

LITTLE_ROOM, ALL_ROOM = (0, 700), 2**64 - 1  # of caches, in bytes
CAPACITIES = (*LITTLE_ROOM, None, ALL_ROOM)  # none: the default
RANDOM_CASES, TABLE_CASES, IN_ONE_RUN = share_of(4_000), share_of(10_000), 500
NO_END = 2**64 - 1  # like a span of a haystack whose length isn't known
UNSUPPORTED = "the search doesn't support this anchoring"

# Patterns, haystacks, and matches, as pattern and start; if not everything has its default, also the slice, the span
# and where matches start, and whether an empty match inside a character is found.
VECTORS = [
    (["b", "ab"], "ab", "1 0"),
    (["ab", "a"], "ab", "0 0"),
    (["a+", "a*b"], "aab", "1 0"),
    (["a|ab"], "abb", "none"),
    (["b+?"], "abb", "0 1"),
    (["aa?", "a"], "aa", "0 0"),
    (["a", "a"], "a", "0 0"),
    # The least start, not the nearest one.
    (["b|ab|b"], "ab", "0 0"),
    (["a.*c|c"], "abcac", "0 0"),
    # No walk leaves the slice, or begins before the span; a match may begin at a slice's start.
    (["a*"], "aaaa", "0 2", ((2, 4), (0, 4), AT_START)),
    (["a*"], "aaaa", "0 2", ((0, 4), (2, 4), AT_START)),
    (["foo$"], "xfoox", "0 1", ((1, 4), (1, 4), AT_START)),
    (["^foo"], "xfoox", "0 1", ((1, 4), (1, 4), AT_START)),
    (["foo$"], "xfoox", "none", ((0, 5), (0, 4), AT_START)),
    (["^foo"], "xfoox", "none", ((0, 5), (1, 4), AT_START)),
    (["\\bo"], "xo", "0 1", ((1, 2), (1, 2), AT_START)),
    (["\\bo"], "xo", "none", ((0, 2), (1, 2), AT_START)),
    (["o\\b"], "ox", "none", ((0, 2), (0, 1), AT_START)),
    (["o\\b"], "ox", "0 0", ((0, 1), (0, 1), AT_START)),
    (["o\\b"], "oé", "none", ((0, 3), (0, 1), AT_START)),
    # An empty match only if it may be there.
    (["x*"], "せ", "0 3"),
    (["x*"], "せ", "none", ((0, 3), (0, 2), AT_START)),
    (["x*"], "せ", "0 2", ((0, 3), (0, 2), AT_START), True),
    (["x*", "."], "せ", "1 0"),
    (["", "a"], "a", "1 0"),
    # A pattern by its number, and an unknown one.
    (["b", "ab"], "ab", "0 1", ((0, 2), (0, 2), FIRST)),
    (["b", "ab"], "ab", "1 0", ((0, 2), (0, 2), SECOND)),
    (["b", "ab"], "ab", "none", ((0, 2), (0, 2), SECOND + 1)),
    # An end past the haystack's means the haystack's end, also of a slice.
    (["a*"], "aa", "0 0", ((0, 9), (0, 9), AT_START)),
    (["a*"], "aa", "0 0", ((0, 2), (0, 3), AT_START)),
    (["a*"], "aa", "0 0", ((0, 3), (0, 2), AT_START)),
    (["a*"], "aa", "0 1", ((1, 9), (0, NO_END), AT_START)),
    (["a*"], "aa", "0 2", ((0, NO_END), (2, NO_END), AT_START)),
    (["a$", "a"], "ba", "0 1", ((0, 9), (0, 7), AT_START)),
    (["x*"], "せ", "0 3", ((0, 9), (1, 9), AT_START)),
    (["b", "ab"], "ab", "1 0", ((0, 9), (0, 9), SECOND)),
    (["a"], "", "none", ((0, 9), (0, 9), AT_START)),
    ([""], "", "0 0", ((0, 9), (0, 9), AT_START)),
    # An error unless span and slice are in order, and unless it is anchored.
    (["a*"], "aa", "none", ((0, 1), (0, 9), AT_START)),
    (["a*"], "aa", "none", ((0, 1), (0, 2), AT_START)),
    (["a*"], "aa", "none", ((1, 2), (0, 0), AT_START)),
    (["a*"], "aa", "none", ((0, 9), (3, 9), AT_START)),
    (["a*"], "aa", "none", ((0, 2), (2, 1), AT_START)),
    ([], "ab", "none"),
    (["a"], "a", UNSUPPORTED, ((0, 1), (0, 1), ANYWHERE)),
    (["a"], "a", UNSUPPORTED, ((0, 1), (0, 9), ANYWHERE)),
    (["a"], "a", UNSUPPORTED, ((0, 9), (0, 9), ANYWHERE)),
]

# By an automaton with word assertions: the byte before which it quits, if it meets one before the search is over.
QUITS = [
    (["o\\b"], "oé", "the search met the byte 195 at 1, and can't go on", ((0, 3), (0, 1), AT_START)),
    (["o\\b"], "oé", "0 0", ((0, 1), (0, 1), AT_START)),
    (["\\bo"], "éo", "the search met the byte 169 at 1, and can't go on"),
    (["\\bo"], "éo", "the search met the byte 169 at 1, and can't go on", ((0, 3), (2, 3), AT_START)),
    (["\\bo"], "éo", "0 2", ((2, 3), (2, 3), AT_START)),
    (["\\b.+o"], "aéo", "the search met the byte 169 at 2, and can't go on"),
    (["a\\b"], "éa bb", "none"),
    (["o"], "éoé", "0 2", ((0, 5), (2, 3), AT_START)),
    (["\\bo"], "éo", "the search met the byte 169 at 1, and can't go on", ((0, 9), (2, 9), AT_START)),
]

# With a cache that has room for two states: each letter leads to another one, and so does the first offset, and when
# they would be cleared for the fourth time it gives up.
IN_TWO_STATES = [
    (["abcdef"], "abcdef", "0 0"),
    (["abcdefg"], "abcdefg", "the search gave up at 0"),
    (["abcdefgh"], "abcdefgh", "the search gave up at 1"),
    (["abcdefgh"], "xabcdefgh", "the search gave up at 2", ((0, 9), (2, 9), AT_START)),
    (["abcdefgh"], "xabcdefgh", "the search gave up at 2", ((0, NO_END), (2, NO_END), AT_START)),
]
IN_ALL_ROOM = [(["abcdefgh"], "abcdefgh", "0 0"), (["[ab]{5}a[ab]*"], "b" * 99 + "abbab" * 40, "0 94")]


def about(
    patterns, haystack, answer, cut=0, asked=None, inside=False, settings=Settings(), times=1, room=None, by="backwards"
):
    """A case of one search with a cache of this capacity that was used this often before, with a slice, a span, and
    where matches start."""
    slice_, span, anchored = asked or ((0, len(haystack)), (0, len(haystack)), AT_START)
    texts = ".".join(map(written, patterns)) if patterns else "-"
    fields = [texts, *settings.fields(), cut, haystack.hex(), *slice_, *span, anchored, int(inside), times, room]
    name = f"{by} {patterns} in {short(haystack)}, cut by {cut}, {asked}, inside {inside}, {settings}"
    return Case(f"{name}, {times} before, capacity {room}", line_of(by, *fields), answer)


class ByTable:
    """Searches by the automaton of a reversed program, with a known result."""

    def __init__(self, patterns, haystack, answer, cut, asked, inside, settings, times):
        self.answer, self.haystack = answer, haystack
        self.asked = asked or ((0, len(haystack)), (0, len(haystack)), AT_START)
        self.has_words = any(re.search(r"\\[bB]", pattern) for pattern in patterns)
        how = patterns, haystack, answer, cut, asked, inside, settings, times
        self.cases = [about(*how, room, "by_table") for room in CAPACITIES]

    def places(self):
        """The offsets of the search, backward from the span's end."""
        slice_, span, _ = self.asked
        return range(min(span[1], len(self.haystack)), max(slice_[0], span[0]) - 1, -1)

    def quit(self):
        """How a search quits, if there is a byte before which it may have to."""
        start, end = self.asked[0]
        if self.has_words:
            for place in [*self.places(), min(self.places(), default=0) - 1]:
                if start <= place < min(end, len(self.haystack)) and self.haystack[place] >= 128:
                    return f"the search met the byte {self.haystack[place]} at {place}, and can't go on"
        return None

    def is_given_up(self, answer):
        """Whether the answer is that a search gave up at an offset inside."""
        told = re.fullmatch(r"the search gave up at (\d+)", answer)
        return told is not None and int(told[1]) in self.places()

    def wrong(self, told):
        """The cases that have wrong answers, with these."""
        for room, case, answer in zip(CAPACITIES, self.cases, told):
            gave_up = room in LITTLE_ROOM and self.is_given_up(answer)
            if answer not in (self.answer, self.quit()) and not gave_up:
                yield f"{case.name}: {short(answer.encode())}, and not {self.answer}"


def by_tables(searches):
    """What is wrong with the answers to such searches, and the kinds of answers, each of which must occur."""
    counts, wrong = {"with a match": 0, "that quit": 0, "that gave up": 0}, []
    searches = iter(searches)
    while batch := list(itertools.islice(searches, IN_ONE_RUN)):
        told, with_run = answers([case for search in batch for case in search.cases])
        wrong += with_run
        for number, search in enumerate(batch):
            here = told[len(CAPACITIES) * number : len(CAPACITIES) * (number + 1)]
            wrong += search.wrong(here)
            counts["with a match"] += re.fullmatch(r"\d+ \d+", here[-1]) is not None
            counts["that quit"] += "can't go on" in here[-1]
            counts["that gave up"] += any("gave up" in answer for answer in here)
    wrong += [f"no searches {what}" for what, count in counts.items() if not count]
    return wrong, ", ".join(f"{count} {what}" for what, count in counts.items())


def found_by_model(trees, haystack, asked, inside, line_end):
    """The model's result."""
    model, pattern = model_of(trees, haystack, asked, inside, line_end)
    found = model.find_backwards(pattern)
    return UNSUPPORTED if asked[2] == ANYWHERE else "none" if found is None else " ".join(map(str, found))


def told_of(trees, haystack, cut, asked, inside=False, line_end=b"\n"):
    """A search with the model's result."""
    answer = found_by_model(trees, haystack, asked, inside, line_end)
    settings = Settings() if line_end == b"\n" else Settings(line_end=line_end[0])
    return list(map(spelled, trees)), haystack, answer, cut, asked, inside, settings


def cases_of(searches):
    """Cases of such searches, with caches that were used once, of each capacity in turn."""
    for told, room in zip(itertools.starmap(told_of, searches), itertools.cycle(CAPACITIES)):
        yield about(*told, room=room)


def by_table_of(searches):
    """Such searches by the automaton of the reversed program, with caches that were used up to twice."""
    for told, times in zip(itertools.starmap(told_of, searches), itertools.cycle(range(3))):
        yield ByTable(*told, times)


def vectors():
    rooms = itertools.cycle(CAPACITIES)
    for size, (patterns, haystack, answer, *asked) in itertools.product(SIZES, VECTORS):
        yield about(patterns, haystack.encode(), answer, size, *asked, room=next(rooms))


def told_by_tables(rows, times, room):
    """Rows with the answer of an automaton with a cache of this capacity that was used this often."""
    for size, (patterns, haystack, answer, *asked) in itertools.product(SIZES, rows):
        yield about(patterns, haystack.encode(), answer, size, *asked, times=times, room=room, by="by_table")


def drawn(count, seed):
    """Patterns, haystacks, their chunks, the search, and settings."""
    chance = random.Random(seed)
    maker = Maker(chance, most_nodes=30)
    for _ in range(count):
        trees = tuple(maker.tree() for _ in range(chance.choice((0, 1, 1, 2, 2, 3, 4))))
        haystack = "".join(map(maker.haystack, trees[:2])).encode()[:12]
        slice_, span, _ = asked_at_random(chance, len(haystack))
        asked = slice_, span, chance.choice((AT_START, AT_START, chance.randint(AT_START, len(trees) + FIRST)))
        settings = chance.random() < 0.3, chance.choice([b"\n", b"\n", b"a", b"\x81"])
        yield trees, haystack, chance.choice(SIZES), asked, *settings


def tables():
    """Random searches, in short haystacks, in haystacks that are no UTF-8, and each that is listed here, by the
    automaton of the reversed program."""
    yield from by_table_of(itertools.chain(drawn(TABLE_CASES, 57), in_spans(), past_contents(), in_cut_characters()))
    for size, (patterns, haystack, answer, *told) in itertools.product(SIZES, VECTORS):
        asked, inside = (*told, None, False)[:2]
        yield ByTable(patterns, haystack.encode(), answer, size, asked, bool(inside), Settings(), 1)


def in_spans():
    """All spans of short haystacks."""
    sizes = itertools.cycle(SIZES)
    for text, trees in itertools.product(SMALL_HAYSTACKS, SMALL_TREES):
        haystack = text.encode()
        for slice_ in pairs(0, len(haystack)):
            for span, anchored in itertools.product(pairs(0, len(haystack)), (ANYWHERE, AT_START, FIRST, SECOND)):
                yield trees, haystack, next(sizes), (slice_, span, anchored)


def past_contents():
    """Spans and slices that end inside a haystack, at its end and past it."""
    sizes = itertools.cycle(SIZES)
    for text, trees in itertools.product(SMALL_HAYSTACKS, SMALL_TREES):
        haystack = text.encode()
        ends = *range(len(haystack) + 3), NO_END
        for slice_end, end, start in itertools.product(ends, ends, range(len(haystack) + 2)):
            if start <= end + 1:
                yield trees, haystack, next(sizes), ((0, slice_end), (start, end), AT_START)


def in_cut_characters():
    """Haystacks that are no UTF-8."""
    sizes = itertools.cycle(SIZES)
    for haystack, trees in itertools.product((b"\xe3\x81a\x80", b"a\xc3", b"\x80\x80b", b"\xc3\xa9\xa9"), SMALL_TREES):
        for span, inside in itertools.product(pairs(0, len(haystack)), (False, True)):
            yield trees, haystack, next(sizes), ((0, len(haystack)), span, AT_START), inside


def test_all():
    check_memory(about(["a|ab", "(b)+"], b"abb", "1 1", 1), [WANT])
    check_memory(about(["\\b(a|é)+b"], "aéb".encode(), "0 0", 1), [WANT])
    # Without room in the cache a search after a refused one may give up, so these have enough.
    case = about(["(a)|b", "[a-é]+b"], "xéab".encode(), "1 0", 2, times=0, room=None, by="by_table")
    check_memory(case, [WANT, b"again"], f"{case.answer}\n".encode())
    test("backward searches return the expected matches", problems(vectors()))
    test("random backward searches, compared with the model", in_runs(cases_of(drawn(RANDOM_CASES, 56))))
    test("backward searches in all spans of short haystacks, compared with the model", in_runs(cases_of(in_spans())))
    test("backward searches from ends past the haystack, compared with the model", in_runs(cases_of(past_contents())))
    wrong = problems(cases_of(in_cut_characters()))
    test("backward searches in haystacks that are not UTF-8, compared with the model", wrong)
    wrong, how = by_tables(tables())
    test(f"automata of reversed programs, compared with the model: {how}", wrong)
    for name, rows, *how in (("two states", IN_TWO_STATES, 0, 0), ("all states", IN_ALL_ROOM + QUITS, 1, ALL_ROOM)):
        wrong = problems(told_by_tables(rows, *how))
        test(f"automata of reversed programs with a cache for {name} return the expected matches", wrong)
