"""Groups by a single thread, on bin/search-driver: what the PikeVM notes in slots, or that a single thread can't say; whole
patterns and parts of them, in haystacks in chunks, also when the edges of a search are known from the one before.

The expected answers are listed here, or those of the model of tests/models/walks.py for random cases: then `unknown` is
right too, but not where some anchored search is known to leave one thread. SEARCH_DRIVER names another program than
bin/search-driver.
"""
import random

from driver import Case, answers, problems, search
from harness import test
from random_patterns import Maker
from test_searches import slots_of

RANDOM_CASES = 1_500

# Patterns, haystacks, the end of the span, and what is noted in slots; the search starts at 0 and is anchored.
ROWS = [
    # Each byte leaves one thread.
    ("(\\w+) (\\w+)", "one two", 7, "0 0 7 0 3 4 7"),
    ("(\\w+) (\\w+)", "größe zwei", 12, "0 0 12 0 7 8 12"),
    ("((a)(b)?)+c", "aababc", 6, "0 0 6 3 5 3 4 4 5"),
    ("(?:(a)|b)+", "ab", 2, "0 0 2 0 1"),
    ("(a)?(b)?(c)?", "ac", 2, "0 0 2 0 1 - - 1 2"),
    # A match ends before the last byte, and another one at it.
    ("(a)+", "aaa", 3, "0 0 3 2 3"),
    ("(a|b)*", "", 0, "0 0 0 - -"),
    # The last byte of the span is the last that is read.
    ("(a+)", "aaab", 3, "0 0 3 0 3"),
    ("(a+)", "aaab", 2, "0 0 2 0 2"),
    # A byte leaves two threads.
    ("(a|ab)(c|bcd)", "abcd", 4, "unknown"),
    ("(\\w+)(\\d)", "ab1", 3, "unknown"),
    # The thread dies after the match ended.
    ("(a)(?:bc)?", "abd", 3, "unknown"),
    ("(a)", "b", 1, "unknown"),
    # At most four slots are noted at once.
    ("((((a))))", "a", 1, "unknown"),
    ("(((a)))", "a", 1, "0 0 1 0 1 0 1 0 1"),
    # Assertions aren't known.
    ("^(a)", "a", 1, "unknown"),
    ("(a)\\b", "a", 1, "unknown"),
]


def alone(case, times):
    """The case of slots, as one by a single thread."""
    line = f"{case.line.replace('slots', 'alone', 1)[:-1]},{times}\n"
    return Case(f"{times} searches by a single thread, {case.name}", line, case.answer)


def rows():
    for pattern, haystack, end, answer in ROWS:
        text = haystack.encode()
        slots = 9 if answer == "unknown" else len(answer.split()) - 1
        for cut, times in ((0, 1), (0, 3), (1, 1), (2, 3)):
            asked = ((0, len(text)), (0, end), True)
            yield alone(search(pattern, text, answer, cut, asked, slots=slots), times)


def not_anchored():
    """A search that isn't anchored, or only for one pattern, isn't one by a single thread."""
    for anchored in (False, 2):
        yield alone(search("(a)", b"a", "unknown", 0, ((0, 1), (0, 1), anchored), slots=4), 1)


def at_random(count=RANDOM_CASES):
    """Anchored searches of the model, in the span of the match found."""
    chance = random.Random(17)
    maker = Maker(chance)
    while count > 0:
        tree = maker.tree()
        haystack = maker.haystack(tree).encode()
        start = chance.randint(0, len(haystack))
        asked = ((0, len(haystack)), (start, chance.randint(start, len(haystack))), True)
        case = slots_of(tree, haystack, chance.randint(0, 2 * maker.groups + 4), chance.choice((0, 1, 2)), asked)
        if not case.answer.startswith("none") or chance.random() < 0.1:
            count -= 1
            yield alone(case, chance.choice((1, 2)))


def wrong_at_random():
    """What is wrong with random cases, in which `unknown` is right too, but not in most."""
    cases = list(at_random())
    told, wrong = answers(cases)
    yield from wrong
    for case, answer in zip(cases, told):
        if answer not in ("unknown", case.answer):
            yield f"{case.name}: {answer}, not {case.answer}"
    known = len(cases) - told.count("unknown")
    if known < len(cases) / 5:
        yield f"{known} of {len(cases)} are known"


def test_all():
    test("single threads with listed answers", problems(rows()))
    test("searches that are not anchored for all patterns", problems(not_anchored()))
    test("random searches by a single thread", wrong_at_random())
